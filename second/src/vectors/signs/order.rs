//! Each fault of a call of the sign alone, and each two of different checks together: the one that is looked for first
//! is answered.

use super::{ask, report, LINES};
use crate::header::checked_header;
use crate::sign::{cleared, PLACE_BYTES};
use crate::sizes::{HEADER_BYTES, LONGEST_CODE, MARK_BYTES};
use crate::vectors::faults::R;
use crate::vectors::inputs::case_1_file;
use crate::vectors::script::Script;

/// When each line was heard last.
const HEARD_AT: u32 = 1_000;

/// All that is lent to a report, and to a question.
struct Lent {
    file: Vec<u8>,
    levels: Vec<u8>,
    times: Vec<u8>,
    code: Vec<u8>,
    level: i32,
    time: u32,
    limit: u32,
}

/// What is wrong with a call.
type Fault = fn(&mut Lent);

/// A check that a call makes, and faults that it finds.
struct Check {
    words: &'static str,
    faults: &'static [Fault],
}

/// Makes a call with what is lent.
type Call = fn(&mut Script, &Lent);

const UNDER_SEVEN: Check = Check {
    words: "under 7 bytes (9)",
    faults: &[
        |lent| lent.file.truncate(HEADER_BYTES - 1),
        |lent| lent.file.clear(),
    ],
};
const MARK: Check = Check {
    words: "the HD mark (10)",
    faults: &[|lent| lent.file[0] = b'?', |lent| lent.file[1] = b'?'],
};
const NUMBERS: Check = Check {
    words: "header numbers (11)",
    faults: &[|lent| lent.file[R] = 4],
};
const LENGTH: Check = Check {
    words: "the length (9)",
    faults: &[
        |lent| lent.file.push(0),
        |lent| lent.file.truncate(lent.file.len() - 1),
    ],
};
const CODE: Check = Check {
    words: "the code asked for (16)",
    faults: &[
        |lent| lent.code.clear(),
        |lent| lent.code = vec![b'B'; LONGEST_CODE + 1],
    ],
};
const RANK: Check = Check {
    words: "a rank entry (13)",
    faults: &[|lent| {
        let header = checked_header(&case_1_file()).expect("a file that was built");
        let entries = header.rank_record() + MARK_BYTES..header.key_record(0);
        lent.file[entries].fill(0xFF);
    }],
};
const LIMIT: Check = Check {
    words: "the limit (22)",
    faults: &[|lent| lent.limit = 0, |lent| lent.limit = 86_401],
};
const LISTS: Check = Check {
    words: "the lists (23)",
    faults: &[
        |lent| lent.levels.truncate(lent.levels.len() - 1),
        |lent| lent.times.resize(lent.times.len() + PLACE_BYTES, 0),
    ],
};
/// DB lands on the line of BB.
const STRANGER: Check = Check {
    words: "a stranger (unknown)",
    faults: &[|lent| lent.code = b"DB".to_vec()],
};
const LEVEL: Check = Check {
    words: "the level (17)",
    faults: &[|lent| lent.level = -20_001, |lent| lent.level = 20_001],
};
const TIME: Check = Check {
    words: "the time (18)",
    faults: &[|lent| lent.time = HEARD_AT - 1],
};
const NOW: Check = Check {
    words: "the time now (19)",
    faults: &[|lent| lent.time = HEARD_AT - 1],
};

/// The checks of each call, in the order in which it makes them.
const OF_REPORTING: [Check; 10] = [
    UNDER_SEVEN,
    MARK,
    NUMBERS,
    LENGTH,
    CODE,
    RANK,
    LISTS,
    STRANGER,
    LEVEL,
    TIME,
];
const OF_ASKING: [Check; 10] = [
    UNDER_SEVEN,
    MARK,
    NUMBERS,
    LENGTH,
    CODE,
    RANK,
    LIMIT,
    LISTS,
    STRANGER,
    NOW,
];

pub fn write(script: &mut Script) {
    each_two(script, "reporting", &OF_REPORTING, |script, lent| {
        report(script, &lent.code, lent.level, lent.time)
    });
    each_two(script, "asking", &OF_ASKING, |script, lent| {
        ask(script, &lent.code, lent.time, lent.limit)
    });
}

/// Case 1's file, every line of it heard, with BC and arguments that are right.
fn right() -> Lent {
    let (_, mut times) = cleared(LINES.len());
    for time in times.chunks_mut(PLACE_BYTES) {
        time.copy_from_slice(&HEARD_AT.to_le_bytes());
    }
    Lent {
        file: case_1_file(),
        levels: vec![0; times.len()],
        times,
        code: b"BC".to_vec(),
        level: -5,
        time: HEARD_AT,
        limit: 60,
    }
}

/// Each fault alone, and each two; the later fault is put in first, so that the earlier may cut the file or take another
/// code.
fn each_two(script: &mut Script, words: &str, checks: &[Check], call: Call) {
    for (k, first) in checks.iter().enumerate() {
        script.comment(&format!("{words}: {}", first.words));
        for fault in first.faults {
            call_with(script, call, &[fault]);
        }
        for later in &checks[k + 1..] {
            let Check { words: after, .. } = later;
            script.comment(&format!("{words}: {} before {after}", first.words));
            for (first, later) in pairs(first.faults, later.faults) {
                call_with(script, call, &[later, first]);
            }
        }
    }
}

fn pairs<'a>(
    first: &'a [Fault],
    later: &'a [Fault],
) -> impl Iterator<Item = (&'a Fault, &'a Fault)> {
    first
        .iter()
        .flat_map(move |first| later.iter().map(move |later| (first, later)))
}

/// Makes a call with these faults, which are put in one after the other.
fn call_with(script: &mut Script, call: Call, faults: &[&Fault]) {
    let mut lent = right();
    for fault in faults {
        fault(&mut lent);
    }
    script.file(&lent.file);
    script.lists(&lent.levels, &lent.times);
    call(script, &lent);
}
