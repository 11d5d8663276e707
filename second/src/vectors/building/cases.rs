//! Document 01's cases 1 to 12 as builds, and the lists that pin what the cases leave open.

use super::{build, read_back, round_trip};
use crate::sizes::LONGEST_CODE;
use crate::vectors::inputs::{diagonal, owned, Input, CASE_1};
use crate::vectors::script::Script;

/// Bytes of the buffer after the file.
const TO_SPARE: usize = 5;

pub fn write(script: &mut Script) {
    cases_that_build(script);
    cases_that_are_refused(script);
    longest_codes(script);
    largest_parts(script);
    buffers(script);
    lists_that_pin_more(script);
}

/// A list under the weights p(j,j) = 1.
fn list(codes: &[&[u8]], r: usize, v: u64) -> Input {
    under(&diagonal(r), codes, r as u64, v)
}

fn under(weights: &[u16], codes: &[&[u8]], r: u64, v: u64) -> Input {
    let mut input = Input::new(&owned(codes), r, v, weights);
    input.room += TO_SPARE;
    input
}

/// Builds, shows the whole buffer, and reads the file.
fn whole(script: &mut Script, input: &Input, strangers: &[&[u8]]) {
    if build(script, input) {
        script.dump();
        read_back(script, input, strangers);
    }
}

fn cases_that_build(script: &mut Script) {
    script.comment("case 1, and the strangers of cases 2 and 3");
    whole(script, &list(&CASE_1, 2, 4), &[b"AA", b"DB"]);
    script.comment("case 4");
    whole(script, &list(&[b"BA"], 2, 4), &[b"CA"]);
    script.comment("case 9");
    whole(script, &list(&[], 2, 4), &[b"AA"]);
    script.comment("case 10");
    whole(script, &under(&[0; 96], &[b"BA"], 3, 1), &[b"BB"]);
}

/// A refused build leaves the buffer as it was.
fn cases_that_are_refused(script: &mut Script) {
    let codes: [(&str, Input); 5] = [
        ("case 5", list(&[b"BA", b"BB", b"DA", b"DB"], 2, 4)),
        ("case 6", list(&[b"BA", b"BB", b"DA", b"DB", b"BC"], 2, 4)),
        ("case 7", list(&[b"BA", b"FA"], 2, 4)),
        ("case 8", list(&[b"BA", b"BB", b"BA"], 2, 4)),
        ("case 10, cyclic", under(&[0; 96], &[b"BA", b"BB"], 3, 1)),
    ];
    for (words, input) in codes {
        script.comment(words);
        build(script, &input);
        script.dump();
    }
}

fn longest_codes(script: &mut Script) {
    let longer: Vec<u8> = (1..=33).map(|i| 7 * i).collect();
    let longest = &longer[..LONGEST_CODE];
    script.comment("case 11: 32 bytes");
    round_trip(script, &list(&[longest], 2, 4), &[&longer]);
    script.comment("case 11: 33 bytes");
    build(script, &list(&[&longer], 2, 4));
    build(script, &list(&[b"BA", longest, &longer], 2, 4));
}

fn largest_parts(script: &mut Script) {
    let codes: [&[u8]; 2] = [b"BA", b"\xFF\xFE\xFD"];
    for (r, v) in [(2, 2_048), (3, 1_365)] {
        script.comment(&format!("case 11: r = {r}, v = {v}"));
        let mut input = list(&codes, r, v);
        round_trip(script, &input, &[b"AA", b"CB"]);
        input.v += 1;
        script.comment(&format!("case 11: r = {r}, v = {}", input.v));
        build(script, &input);
    }
}

/// The last build takes the buffer as it was left: case 1's file, cut by a byte.
fn buffers(script: &mut Script) {
    script.comment("case 12");
    for room in [285, 284, 286, 0, 1, 65_536] {
        let mut input = list(&CASE_1, 2, 4);
        input.room = room;
        build(script, &input);
    }
    script.comment("case 12, in what a build has left");
    for room in [285, 284] {
        let mut input = list(&CASE_1, 2, 4);
        input.room = room;
        script.build(&input).ok();
    }
}

fn lists_that_pin_more(script: &mut Script) {
    script.comment("r = 3, v = 5: the order j = 0, 1, .. decides the lines");
    let codes: [&[u8]; 5] = [b"CFF", b"BAE", b"CCD", b"BDF", b"FDE"];
    whole(script, &list(&codes, 3, 5), &[b"CFE"]);
    script.comment("r = 3, v = 2: a code that would join twice in one step");
    let codes: [&[u8]; 3] = [b"BAA", b"AAA", b"BBB"];
    whole(script, &list(&codes, 3, 2), &[b"BBA"]);
    script.comment("r = 2, v = 100: rank entries 0 1 2 2");
    let codes: [&[u8]; 2] = [b"\x0A\x05", b"\x5A\x06"];
    whole(script, &list(&codes, 2, 100), &[b"\x0A\x06"]);
}
