//! Each refusal of the sign at its edges, alone.

use super::{ask, begin, begin_case_1, report, LINES};
use crate::header::checked_header;
use crate::sign::{cleared, PLACE_BYTES};
use crate::sizes::{KEY_BYTES, LONGEST_CODE, MARK_BYTES, NUMBER_BYTES};
use crate::vectors::faults::N;
use crate::vectors::inputs::{case_1_file, changed, diagonal, directory};
use crate::vectors::script::Script;

pub fn write(script: &mut Script) {
    levels(script);
    earlier(script);
    limits(script);
    lists(script);
    codes_asked_for(script);
    rank_entries(script);
}

/// On a line that was never heard, and on one that was.
fn levels(script: &mut Script) {
    script.comment("refusal 17: levels beside the edges, and such as would be levels in two bytes");
    begin_case_1(script);
    report(script, b"BA", 0, 10);
    for level in [-20_001, 20_001, 30_000, 65_536, -65_536, i32::MIN, i32::MAX] {
        report(script, b"BA", level, 10);
        report(script, b"DA", level, 10);
    }
}

fn earlier(script: &mut Script) {
    script.comment("refusals 18 and 19: a second earlier, and the first time");
    begin_case_1(script);
    for time in [1, 1 << 31, u32::MAX] {
        report(script, b"BC", 3, time);
        for earlier in [time - 1, 0] {
            report(script, b"BC", 4, earlier);
            ask(script, b"BC", earlier, 86_400);
        }
    }
}

/// On a line that was heard, on one that was not, and for a stranger.
fn limits(script: &mut Script) {
    script.comment("refusal 22: limits beside the edges");
    begin_case_1(script);
    report(script, b"BA", 1, 1);
    for limit in [0, 86_401, 151_936, 1 << 31, u32::MAX] {
        for code in [b"BA", b"BB", b"AA"] {
            ask(script, code, 1, limit);
        }
    }
}

/// Each list alone and both, with every length up to a place more than is right.
fn lists(script: &mut Script) {
    script.comment("refusal 23: each length but the right one, of the levels, the times and both");
    begin_case_1(script);
    let right = PLACE_BYTES * LINES.len();
    let (levels, times) = cleared(LINES.len() + 1);
    for length in (0..=right + PLACE_BYTES).filter(|&length| length != right) {
        for (levels_length, times_length) in [(length, right), (right, length), (length, length)] {
            script.lists(&levels[..levels_length], &times[..times_length]);
            report(script, b"DA", 1, 1);
            ask(script, b"DA", 1, 1);
        }
    }
}

fn codes_asked_for(script: &mut Script) {
    script.comment("refusal 16: the empty code, and codes of 33 bytes and more");
    begin_case_1(script);
    for length in [0, LONGEST_CODE + 1, 256 + 2] {
        let code: Vec<u8> = b"BA".iter().copied().cycle().take(length).collect();
        report(script, &code, 1, 1);
        ask(script, &code, 1, 1);
    }
}

/// With r = 2 and v = 100 the two codes land in the blocks 0 and 1, whose rank entries are wrong in turn.
fn rank_entries(script: &mut Script) {
    script.comment("refusal 13: the place is the rank entry's");
    let codes: [&[u8]; 2] = [&[0x0A, 0x05], &[0x5A, 0x06]];
    let file = directory(&codes, 2, 100, &diagonal(2));
    let header = checked_header(&file).expect("a file that was built");
    for entry in [0, 1] {
        let start = header.rank_record() + MARK_BYTES + NUMBER_BYTES * entry;
        let wrong = changed(&file, |file| {
            file[start..start + NUMBER_BYTES].fill(0xFF);
        });
        begin(script, &wrong, codes.len());
        for code in codes {
            report(script, code, 1, 1);
            ask(script, code, 1, 1);
        }
    }
    script.comment("a line less: the lists belong to the header");
    let three = changed(&case_1_file(), |file| {
        file[N] = 3;
        file.truncate(file.len() - KEY_BYTES);
    });
    for places in [3, 4] {
        begin(script, &three, places);
        for code in LINES {
            report(script, code, 1, 1);
            ask(script, code, 1, 1);
        }
    }
}
