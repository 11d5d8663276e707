//! Reports and questions by hand: levels and times as bytes, equal times, ages at the limit, times under no level, and
//! signs without lines and with the most.

use super::{ask, begin, begin_case_1, report, LINES};
use crate::sign::{cleared, PLACE_BYTES};
use crate::sizes::{MOST_CODES, WEIGHTS_OF_A_PART};
use crate::vectors::inputs::{diagonal, directory};
use crate::vectors::script::Script;

/// Any byte that neither a level nor a time of the vectors has in all its places.
const JUNK: u8 = 0x99;

pub fn write(script: &mut Script) {
    at_first(script);
    levels(script);
    times(script);
    equal_times(script);
    ages(script);
    under_no_level(script);
    among_junk(script);
    strangers(script);
    without_lines(script);
    the_most_lines(script);
}

fn at_first(script: &mut Script) {
    script.comment("cleared lists: nothing is heard");
    begin_case_1(script);
    for code in LINES {
        ask(script, code, 0, 1);
        ask(script, code, u32::MAX, 86_400);
    }
    ask(script, b"AA", 0, 1);
}

/// Each at the same time, so that each takes the place of the one before it.
fn levels(script: &mut Script) {
    script.comment("levels: both edges, zero, and what changes their bytes");
    begin_case_1(script);
    for level in [
        -20_000, 20_000, 0, -1, 1, 127, -128, 128, -129, 255, -256, 256, -257,
    ] {
        report(script, b"BA", level, 7);
        ask(script, b"BA", 7, 1);
    }
}

fn times(script: &mut Script) {
    script.comment("times: both ends, and what changes their bytes");
    begin_case_1(script);
    for time in [
        0,
        255,
        256,
        65_536,
        1 << 24,
        (1 << 31) - 1,
        1 << 31,
        u32::MAX,
    ] {
        report(script, b"BB", 5, time);
        ask(script, b"BB", time, 1);
        ask(script, b"BB", time.wrapping_sub(1), 1);
    }
}

fn equal_times(script: &mut Script) {
    script.comment("an equal time replaces, an earlier one does not");
    begin_case_1(script);
    for (level, time) in [(1, 1_000), (2, 1_000), (3, 999), (4, 0), (5, 1_001)] {
        report(script, b"BC", level, time);
        ask(script, b"BC", 1_001, 1);
    }
    report(script, b"DA", 6, 0);
    ask(script, b"DA", 0, 1);
}

/// At a first time of 0 and of 5,000.
fn ages(script: &mut Script) {
    script.comment("ages: none, the limit, a second more, and the oldest");
    begin_case_1(script);
    for time in [0, 5_000] {
        report(script, b"DA", -9, time);
        for limit in [1, 65_536, 86_399, 86_400] {
            for age in [0, limit - 1, limit, limit + 1, u32::MAX - time] {
                ask(script, b"DA", time + age, limit);
            }
        }
    }
}

/// Numbers beside the levels, the two ends of 32 bits, and such as have a level in their two low bytes. The time under
/// them is the last that there is.
fn under_no_level(script: &mut Script) {
    script.comment("a time under a level that is out of range is ignored");
    for level in [
        20_001,
        -20_001,
        30_000,
        i32::MIN,
        i32::MAX,
        65_536,
        65_535,
        1 << 24,
        i32::MIN + 1,
    ] {
        begin_case_1(script);
        let (mut levels, mut times) = cleared(LINES.len());
        levels[PLACE_BYTES..2 * PLACE_BYTES].copy_from_slice(&level.to_le_bytes());
        times[PLACE_BYTES..2 * PLACE_BYTES].fill(0xFF);
        script.lists(&levels, &times);
        ask(script, b"BA", 0, 1);
        report(script, b"BA", 8, 0);
        ask(script, b"BA", 0, 1);
    }
}

fn among_junk(script: &mut Script) {
    script.comment("each line in lists of any bytes");
    for code in LINES {
        begin_case_1(script);
        let junk = vec![JUNK; PLACE_BYTES * LINES.len()];
        script.lists(&junk, &junk);
        report(script, code, -20_000, 16_909_060);
        for other in LINES {
            ask(script, other, 16_909_061, 1);
        }
    }
}

/// DB lands on the line of BB, and AA on an unassigned vertex.
fn strangers(script: &mut Script) {
    script.comment("strangers");
    begin_case_1(script);
    report(script, b"BB", 11, 50);
    for code in [&b"AA"[..], b"DB", b"B", b"BB\0"] {
        report(script, code, 12, 60);
        ask(script, code, 60, 1);
    }
    ask(script, b"BB", 60, 10);
}

fn without_lines(script: &mut Script) {
    script.comment("no lines");
    begin(script, &directory(&[], 2, 4, &diagonal(2)), 0);
    report(script, b"BA", 1, 1);
    ask(script, b"BA", 1, 1);
    script.comment("no lines, but a place");
    begin(script, &directory(&[], 2, 4, &diagonal(2)), 1);
    report(script, b"BA", 1, 1);
    ask(script, b"BA", 1, 1);
}

/// Code k has vertex k in part 0 to itself and shares all others: it has line k.
fn the_most_lines(script: &mut Script) {
    let codes: Vec<Vec<u8>> = (0..MOST_CODES)
        .map(|k| (k as u16).to_be_bytes().to_vec())
        .collect();
    let mut weights = vec![0; 3 * WEIGHTS_OF_A_PART];
    weights[..2].copy_from_slice(&[256, 1]);
    let lent: Vec<&[u8]> = codes.iter().map(|code| &code[..]).collect();
    let file = directory(&lent, 3, 1_365, &weights);
    script.comment("1,024 lines");
    begin(script, &file, MOST_CODES);
    for line in [0, 1, 255, 256, 1_022, 1_023] {
        report(script, &codes[line], -2, line as u32);
        ask(script, &codes[line], 1_023, 1_022);
    }
    script.comment("1,024 lines, and lists that are a place or a byte too short or too long");
    for bytes in [4_092, 4_095, 4_097, 4_100] {
        let (levels, times) = cleared(MOST_CODES + 1);
        script.lists(&levels[..bytes], &times[..4_096]);
        report(script, &codes[1_023], 1, 2_000);
        script.lists(&levels[..4_096], &times[..bytes]);
        ask(script, &codes[1_023], 2_000, 1);
    }
}
