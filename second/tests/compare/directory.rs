//! Each field of the directory's answers and each byte of its buffers is compared.

use crate::altered::{Altered, UNALTERED};
use crate::{assert_found_out, change, difference};
use second::compare::{DsAnswer, DsCounted, DsFound, DsOpened, DsPart, AT, REFUSED, UNKNOWN};

#[test]
fn another_length_is_found_out() {
    let length = |length: &mut usize| *length += usize::from(*length == 0);
    assert_found_out(
        Altered {
            length,
            ..UNALTERED
        },
        "N ",
    );
}

#[test]
fn each_field_of_a_build_is_compared() {
    let number = |answer: &mut DsAnswer, _: &mut [u8]| answer.number += answer.number / 8;
    let place =
        |answer: &mut DsAnswer, _: &mut [u8]| answer.place += usize::from(answer.number == 5);
    for build in [number, place] {
        assert_found_out(Altered { build, ..UNALTERED }, "B ");
    }
}

#[test]
fn each_byte_of_a_buffer_is_compared() {
    let refused = |answer: &mut DsAnswer, buffer: &mut [u8]| {
        if answer.number == 8 {
            buffer[0] ^= 1;
        }
    };
    let after_the_file = |answer: &mut DsAnswer, buffer: &mut [u8]| {
        if answer.number == 0 {
            *buffer.last_mut().expect("a file has bytes") ^= 0x80;
        }
    };
    for build in [refused, after_the_file] {
        assert_found_out(Altered { build, ..UNALTERED }, "B ");
    }
    let build = refused;
    let words = difference(Altered { build, ..UNALTERED }, 1);
    assert!(words.contains("byte 0 of the buffer"), "{words}");
}

/// The number of codes waiting is looked at where a list builds and where it is refused.
#[test]
fn each_field_and_byte_of_a_counted_build_is_compared() {
    let changes: [fn(&mut DsCounted, &mut [u8]); 7] = [
        |counted, _| counted.number += counted.number / 8,
        |counted, _| counted.place += usize::from(counted.number == 5),
        |counted, _| counted.most_waiting += usize::from(counted.most_waiting > 9),
        |counted, _| counted.most_waiting += usize::from(counted.number == 8),
        |counted, _| counted.place += usize::from(counted.number == 0),
        |counted, buffer| change(counted.number == 8, buffer.first_mut()),
        |counted, buffer| change(counted.number == 0, buffer.last_mut()),
    ];
    for build_counted in changes {
        let altered = Altered {
            build_counted,
            ..UNALTERED
        };
        assert_found_out(altered, "B ");
        let words = difference(altered, 1);
        assert!(words.contains("DsCounted"), "{words}");
    }
}

#[test]
fn each_field_of_an_opening_is_compared() {
    let changes: [fn(&mut DsOpened); 5] = [
        |opened| opened.number += opened.number / 15,
        |opened| opened.place += usize::from(opened.number == 10 && opened.place > 100),
        |opened| opened.n += usize::from(opened.number == 12),
        |opened| opened.r ^= usize::from(opened.number == 0),
        |opened| opened.v *= 2,
    ];
    for open in changes {
        assert_found_out(Altered { open, ..UNALTERED }, "O");
    }
}

#[test]
fn each_field_of_a_lookup_is_compared() {
    let changes: [fn(&mut DsFound); 5] = [
        |found| {
            found.kind = if found.kind == UNKNOWN {
                AT
            } else {
                found.kind
            }
        },
        |found| found.number += found.number / 16,
        |found| found.place += usize::from(found.number == 13),
        |found| found.line += usize::from(found.kind == AT),
        |found| found.line += usize::from(found.kind == REFUSED),
    ];
    for lookup in changes {
        assert_found_out(
            Altered {
                lookup,
                ..UNALTERED
            },
            "L",
        );
    }
}

#[test]
fn each_field_of_a_part_is_compared() {
    let changes: [fn(&mut DsPart); 3] = [
        |part| part.start += 1,
        |part| part.start += usize::from(part.length > 0),
        |part| part.length += usize::from(part.length == 32),
    ];
    for show in changes {
        assert_found_out(Altered { show, ..UNALTERED }, "S ");
    }
}
