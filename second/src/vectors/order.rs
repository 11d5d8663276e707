//! Each fault of a file alone, and each two of different kinds together: the one that is looked
//! for first is given.

use super::faults::{kinds, Change, Kind};
use super::inputs::{changed, diagonal, directory, stored_code, CASE_1};
use super::script::Script;
use crate::header::{checked_header, Header};
use crate::sizes::{LONGEST_CODE, MARK_BYTES};

/// Case 1's file (m = 8), one with m = 70 and one with m = 141: both arities, one to three rank
/// entries, no spare bits, four of them and six.
pub fn write(script: &mut Script) {
    let two_blocks: [&[u8]; 5] = [
        b"\x01\x02",
        b"\x22\x03C",
        b"\x15\x02",
        b"\x21\x22",
        b"A\x22",
    ];
    let three_blocks: [&[u8]; 6] = [b"ABC", b"B", b"\0\xFF", b"GAUGE-17", &[9; 31], &[200; 32]];
    let weights: Vec<u16> = (0..96).map(|i| 651 * i + 7).collect();
    for file in [
        directory(&CASE_1, 2, 4, &diagonal(2)),
        directory(&two_blocks, 2, 35, &diagonal(2)),
        directory(&three_blocks, 3, 47, &weights),
    ] {
        let header = checked_header(&file).expect("a file that was built");
        let Header { n, r, v } = header;
        script.comment(&format!("faults in a file with n = {n}, r = {r}, v = {v}"));
        let kinds = kinds(&file, header);
        for kind in &kinds {
            alone(script, &file, &header, kind);
        }
        for (k, first) in kinds.iter().enumerate() {
            for later in &kinds[k + 1..] {
                together(script, &file, &header, first, later);
            }
        }
        codes_asked_for(script, &file, &header, &kinds);
    }
}

/// Each fault of a kind by itself, with every call.
fn alone(script: &mut Script, file: &[u8], header: &Header, kind: &Kind) {
    script.comment(kind.words);
    for change in &kind.changes {
        script.file(&changed(file, change));
        script.open();
        script.header();
        for line in [0, header.n - 1] {
            script.lookup(stored_code(file, header, line));
            script.show(line as u64);
        }
    }
}

/// The first and the last fault of one kind with the first and the last of another that is looked
/// for later: the later is put in first, so that the earlier may cut the file.
fn together(script: &mut Script, file: &[u8], header: &Header, first: &Kind, later: &Kind) {
    script.comment(&format!("{} before {}", first.words, later.words));
    for earlier_change in ends(&first.changes) {
        for later_change in ends(&later.changes) {
            script.file(&changed(file, |file| {
                later_change(file);
                earlier_change(file);
            }));
            script.open();
            script.lookup(stored_code(file, header, header.n - 1));
            script.show(0);
        }
    }
}

/// The first and the last of some changes.
fn ends(changes: &[Change]) -> impl Iterator<Item = &Change> {
    changes.iter().take(1).chain(changes.iter().skip(1).last())
}

/// Codes of no bytes and of more than 32, in the file as it is and with each fault that lookup
/// could meet before or after it.
fn codes_asked_for(script: &mut Script, file: &[u8], header: &Header, kinds: &[Kind]) {
    script.comment("the code asked for (16), alone and with every other kind");
    let stored = stored_code(file, header, 0);
    let asked = |script: &mut Script| {
        for length in [0, LONGEST_CODE + 1, LONGEST_CODE + 2, 256 + stored.len()] {
            let code: Vec<u8> = stored.iter().copied().cycle().take(length).collect();
            script.lookup(&code);
        }
    };
    script.file(file);
    asked(script);
    for kind in kinds {
        for change in ends(&kind.changes) {
            script.file(&changed(file, change));
            asked(script);
        }
    }
    script.comment("13 at lookup, and 16 before it");
    let entries = header.rank_record() + MARK_BYTES..header.key_record(0);
    script.file(&changed(file, |file| file[entries].fill(0xFF)));
    asked(script);
    for line in 0..header.n {
        script.lookup(stored_code(file, header, line));
    }
}
