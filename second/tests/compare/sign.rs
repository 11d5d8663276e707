//! Each field of the sign's answers and each byte of both lists is compared.

use crate::altered::{Altered, UNALTERED};
use crate::{assert_found_out, change, difference};
use second::compare::{DsAsked, DsReported, ACCEPTED, FRESH, NEVER, REFUSED, STALE, UNKNOWN};

/// What a test does to a report's answer and to the lists.
type Alteration = fn(&mut DsReported, &mut [u8], &mut [u8]);

#[test]
fn each_field_of_a_report_is_compared() {
    let changes: [Alteration; 5] = [
        |reported, _, _| reported.kind += u32::from(reported.kind == UNKNOWN),
        |reported, _, _| reported.number += u32::from(reported.number == 18),
        |reported, _, _| reported.place += usize::from(reported.number == 13),
        |reported, _, _| reported.line += usize::from(reported.kind == ACCEPTED),
        |reported, _, _| reported.line += usize::from(reported.kind == REFUSED),
    ];
    for report in changes {
        assert_found_out(
            Altered {
                report,
                ..UNALTERED
            },
            "A ",
        );
    }
}

/// Where a report is refused, unknown or accepted, the first byte of the levels and the last of the times.
#[test]
fn each_byte_of_the_lists_is_compared() {
    let changes: [Alteration; 6] = [
        |reported, levels, _| change(reported.number == 17, levels.first_mut()),
        |reported, _, times| change(reported.number == 23, times.last_mut()),
        |reported, levels, _| change(reported.kind == UNKNOWN, levels.last_mut()),
        |reported, _, times| change(reported.kind == UNKNOWN, times.first_mut()),
        |reported, levels, _| change(reported.kind == ACCEPTED, levels.last_mut()),
        |reported, _, times| change(reported.kind == ACCEPTED, times.first_mut()),
    ];
    for report in changes {
        assert_found_out(
            Altered {
                report,
                ..UNALTERED
            },
            "A ",
        );
    }
    let report = changes[0];
    let words = difference(
        Altered {
            report,
            ..UNALTERED
        },
        1,
    );
    assert!(words.contains("byte 0 of the levels"), "{words}");
    assert!(words.contains("the times equal"), "{words}");
}

#[test]
fn each_field_of_a_question_is_compared() {
    let changes: [fn(&mut DsAsked); 9] = [
        |asked| asked.kind += u32::from(asked.kind == NEVER),
        |asked| asked.kind += u32::from(asked.kind == FRESH),
        |asked| asked.kind += u32::from(asked.kind == UNKNOWN),
        |asked| asked.number += u32::from(asked.number == 22),
        |asked| asked.place += usize::from(asked.number == 19),
        |asked| asked.level += i32::from(asked.kind == FRESH && asked.level < 0),
        |asked| asked.level += i32::from(asked.kind == NEVER),
        |asked| asked.age += u32::from(asked.kind == FRESH),
        |asked| asked.age += u32::from(asked.kind == STALE),
    ];
    for ask in changes {
        assert_found_out(Altered { ask, ..UNALTERED }, "Q ");
    }
}
