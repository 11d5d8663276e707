//! The refusals 1 to 8, each at its first and its last place.

use super::build;
use crate::sizes::{ARITIES, LONGEST_CODE, MOST_CODES};
use crate::text::run_and_ends;
use crate::trial::LONGEST_FILE;
use crate::vectors::inputs::{diagonal, many, owned, Input, CASE_1};
use crate::vectors::script::Script;

/// Room for the longest file and some bytes more.
const AMPLE: usize = 37_200;

pub fn write(script: &mut Script) {
    arities(script);
    part_sizes(script);
    numbers_of_weights(script);
    numbers_of_codes(script);
    ends(script);
    ends_of_many(script);
    runs_past_two_bytes(script);
    short_buffers(script);
    repeated_codes(script);
    cyclic_lists(script);
}

/// Case 1 with bytes to spare.
fn case_1() -> Input {
    let mut input = Input::new(&owned(&CASE_1), 2, 4, &diagonal(2));
    input.room += 3;
    input
}

/// As one byte, two or four bytes some of these would be 2 or 3.
fn arities(script: &mut Script) {
    script.comment("refusal 1: r is not 2 or 3");
    for r in [
        0,
        1,
        4,
        5,
        255,
        256 + 2,
        65_536 + 3,
        (1 << 32) + 2,
        u64::MAX,
    ] {
        for v in [0, 4, u64::MAX] {
            build(script, &Input { r, v, ..case_1() });
        }
    }
}

/// Twice 2^63 + 4 would wrap to 8 in 64 bits, and three times the last two to 2 and 5.
fn part_sizes(script: &mut Script) {
    script.comment("refusal 2: v is 0 or r·v is over 4,096");
    for v in [
        0,
        2_049,
        4_096,
        65_536 + 4,
        1 << 32,
        (1 << 32) + 4,
        1 << 63,
        (1 << 63) + 4,
        u64::MAX,
    ] {
        build(script, &Input { v, ..case_1() });
    }
    for v in [
        0,
        1_366,
        u64::MAX,
        6_148_914_691_236_517_206,
        6_148_914_691_236_517_207,
    ] {
        let r = 3;
        let weights = diagonal(3);
        let input = Input {
            r,
            v,
            weights,
            ..case_1()
        };
        build(script, &input);
    }
}

fn numbers_of_weights(script: &mut Script) {
    script.comment("refusal 3: the weights are not 32·r in number");
    for (r, counts) in [(2, [0, 32, 63, 65, 96]), (3, [0, 64, 95, 97, 128])] {
        for count in counts {
            let weights = vec![1; count];
            let input = Input {
                r,
                weights,
                ..case_1()
            };
            build(script, &input);
        }
    }
}

fn numbers_of_codes(script: &mut Script) {
    script.comment("refusal 4: more than 1,024 codes");
    for count in [MOST_CODES + 1, 1_100] {
        let (run, ends) = run_and_ends(&vec![vec![0]; count]);
        let room = AMPLE;
        let input = Input {
            run,
            ends,
            room,
            ..case_1()
        };
        build(script, &input);
    }
}

/// What ends do to a run, with the place that is at fault.
fn ends(script: &mut Script) {
    let longest = LONGEST_CODE as u16;
    let longer = longest + 1;
    let lists: [(&str, usize, &[u16]); 17] = [
        ("the first code is empty", 4, &[0, 4]),
        ("the only code is empty", 0, &[0]),
        ("a code is empty", 4, &[2, 2, 4]),
        ("the last code is empty", 4, &[2, 4, 4]),
        ("an end falls", 4, &[2, 1, 4]),
        ("the last end falls", 4, &[2, 4, 3]),
        ("an end falls to 0", 4, &[2, 0, 4]),
        ("the first end passes the run", 4, &[5]),
        ("the last end passes the run", 4, &[2, 5]),
        ("an end passes the run by far", 4, &[2, 65_535, 4]),
        ("the first code has 33 bytes", 35, &[longer, 35]),
        ("the last code has 33 bytes", 35, &[2, 2 + longer]),
        ("33 bytes after 32", 65, &[longest, longest + longer]),
        ("the run is missed by a byte", 5, &[2, 4]),
        ("the run is missed by 33 bytes", 37, &[2, 4]),
        ("no codes, but a run", 1, &[]),
        ("of several faults the lowest", 4, &[2, 3, 3, 9, 1]),
    ];
    for r in ARITIES {
        for (words, length, ends) in lists {
            script.comment(&format!("refusal 5: {words}"));
            let mut input = case_1();
            input.run = (0..length as u8).map(|k| b'A' + k % 26).collect();
            input.ends = ends.to_vec();
            input.r = r;
            input.weights = diagonal(r as usize);
            build(script, &input);
        }
    }
}

fn ends_of_many(script: &mut Script) {
    let mut whole = Input::new(&many(), 2, 2_048, &diagonal(2));
    whole.room = AMPLE;
    for place in [0, 1, MOST_CODES / 2, MOST_CODES - 1] {
        script.comment(&format!("refusal 5: code {place} of 1,024 is empty"));
        let mut input = whole.clone();
        input.ends[place] = 2 * place as u16;
        build(script, &input);
    }
    script.comment("refusal 5: the last of 1,024 ends passes the run");
    let mut input = whole.clone();
    input.ends[MOST_CODES - 1] += 1;
    build(script, &input);
    script.comment("refusal 5: the last of 1,024 ends misses the run");
    let mut input = whole.clone();
    input.ends[MOST_CODES - 1] -= 1;
    build(script, &input);
    input = whole;
    input.run.push(0);
    build(script, &input);
}

/// In two bytes 65,536 would be 0, and the length of the last code 1.
fn runs_past_two_bytes(script: &mut Script) {
    let lists: [(&str, &[u16]); 4] = [
        ("and no codes", &[]),
        ("and one code", &[2]),
        ("which the last end does not reach", &[32, 65_535]),
        ("which the codes miss", &[32, 64, 96]),
    ];
    for (words, ends) in lists {
        script.comment(&format!("refusal 5: a run of 65,536 bytes {words}"));
        let mut input = case_1();
        input.run.resize(LONGEST_FILE, 0);
        input.ends = ends.to_vec();
        build(script, &input);
    }
}

fn short_buffers(script: &mut Script) {
    script.comment("refusal 6: the buffer is shorter than the file");
    for codes in [&CASE_1[..0], &CASE_1[..1], &CASE_1] {
        for (r, v) in [(2, 4), (3, 21)] {
            let whole = Input::new(&owned(codes), r, v, &diagonal(r as usize));
            for room in [0, 1, whole.room - 1] {
                let mut input = whole.clone();
                input.room = room;
                build(script, &input);
            }
        }
    }
    let repeated: [&[u8]; 3] = [b"BA", b"BB", b"BA"];
    let cyclic: [&[u8]; 2] = [b"BA", b"FA"];
    for (codes, r, v) in [
        (many(), 2, 2_048),
        (many(), 3, 1_365),
        (owned(&repeated), 2, 4),
        (owned(&cyclic), 2, 4),
    ] {
        let mut input = Input::new(&codes, r, v, &diagonal(r as usize));
        input.room -= 1;
        build(script, &input);
    }
}

fn repeated_codes(script: &mut Script) {
    script.comment("refusal 7: a code equals an earlier one");
    for place in 1..CASE_1.len() {
        for earlier in 0..place {
            let mut codes = CASE_1;
            codes[place] = codes[earlier];
            build(script, &Input::new(&owned(&codes), 2, 4, &diagonal(2)));
        }
    }
    script.comment("refusal 7: of several the lowest");
    let lists: [&[&[u8]]; 2] = [
        &[b"BA", b"BB", b"BC", b"BB", b"BA"],
        &[b"BA", b"BA", b"BA", b"BA"],
    ];
    for codes in lists {
        build(script, &Input::new(&owned(codes), 2, 4, &diagonal(2)));
    }
    script.comment("refusal 7: the last of 1,024 codes");
    for earlier in [0, MOST_CODES - 2] {
        let mut codes = many();
        codes[MOST_CODES - 1] = codes[earlier].clone();
        build(script, &Input::new(&codes, 2, 2_048, &diagonal(2)));
    }
    script.comment("no refusal 7: a zero byte more is another code");
    let codes: [&[u8]; 3] = [b"BA", b"BA\0", b"BA\0\0"];
    build(script, &Input::new(&owned(&codes), 2, 4, &diagonal(2)));
}

/// Under weights of 0 all codes name the same vertices.
fn cyclic_lists(script: &mut Script) {
    script.comment("refusal 8: all of 2 to 1,024 codes are left");
    for (r, v) in [(2, 2_048), (3, 1_365)] {
        for count in [2, 3, MOST_CODES] {
            let weights = vec![0; LONGEST_CODE * r as usize];
            build(script, &Input::new(&many()[..count], r, v, &weights));
        }
    }
    script.comment("refusal 8: two of 1,024 codes are left");
    let mut weights = vec![0; 2 * LONGEST_CODE];
    weights[0] = 256;
    weights[1] = 1;
    let mut codes = many();
    codes[MOST_CODES - 1] = vec![3, 254, 0];
    build(script, &Input::new(&codes, 2, 2_048, &weights));
    script.comment("refusal 8: more codes than vertices");
    let codes: [&[u8]; 3] = [b"A", b"B", b"C"];
    build(script, &Input::new(&owned(&codes), 2, 1, &diagonal(2)));
}
