//! How often each call was made and each answer was given, so that a reader sees that every one occurred.

use super::call::Given;
use super::calls::{FRESH, NEVER, STALE, UNKNOWN};
use std::collections::BTreeMap;
use std::ops::RangeInclusive;

/// A call with what it can answer.
struct Kind {
    name: &'static str,
    /// The answers that are no refusals.
    answers: &'static [&'static str],
    refusals: &'static [RangeInclusive<u32>],
}

const LENGTH: Kind = Kind {
    name: "length",
    answers: &["a length", "none"],
    refusals: &[],
};
const BUILD: Kind = Kind {
    name: "build",
    answers: &["built"],
    refusals: &[1..=8],
};
const BUILD_COUNTED: Kind = Kind {
    name: "build counted",
    answers: &["built"],
    refusals: &[1..=8],
};
const OPEN: Kind = Kind {
    name: "open",
    answers: &["opened"],
    refusals: &[9..=15],
};
const LOOKUP: Kind = Kind {
    name: "lookup",
    answers: &["at", "unknown"],
    refusals: &[9..=11, 13..=13, 16..=16],
};
const SHOW: Kind = Kind {
    name: "show",
    answers: &["shown", "nothing"],
    refusals: &[],
};
const REPORT: Kind = Kind {
    name: "report",
    answers: &["accepted", "unknown"],
    refusals: &[9..=11, 13..=13, 16..=18, 23..=23],
};
const ASK: Kind = Kind {
    name: "ask",
    answers: &["never", "fresh", "stale", "unknown"],
    refusals: &[9..=11, 13..=13, 16..=16, 19..=19, 22..=23],
};
const KINDS: [Kind; 8] = [
    LENGTH,
    BUILD,
    BUILD_COUNTED,
    OPEN,
    LOOKUP,
    SHOW,
    REPORT,
    ASK,
];

impl Kind {
    /// Every answer that the call can give, in words.
    fn every_answer(&self) -> Vec<String> {
        let answers = self.answers.iter().map(|answer| answer.to_string());
        let refusals = self.refusals.iter().cloned().flatten().map(refused);
        answers.chain(refusals).collect()
    }
}

fn refused(number: u32) -> String {
    format!("refused {number}")
}

/// For each call and answer how often it was given.
#[derive(Default)]
pub struct Counts(BTreeMap<(&'static str, String), u64>);

impl Counts {
    pub fn add(&mut self, given: &Given) {
        let (kind, number, answer) = match given {
            Given::Length(length) => (LENGTH, 0, usize::from(*length == 0)),
            Given::Built(answer, _) => (BUILD, answer.number, 0),
            Given::Counted(counted, _) => (BUILD_COUNTED, counted.number, 0),
            Given::Opened(opened) => (OPEN, opened.number, 0),
            Given::Found(found) => (LOOKUP, found.number, usize::from(found.kind == UNKNOWN)),
            Given::Part(part) => (SHOW, 0, usize::from(part.length == 0)),
            Given::Reported(reported, _) => {
                let answer = usize::from(reported.kind == UNKNOWN);
                (REPORT, reported.number, answer)
            }
            Given::Asked(asked, _) => {
                let answer = match asked.kind {
                    NEVER => 0,
                    FRESH => 1,
                    STALE => 2,
                    _ => 3,
                };
                (ASK, asked.number, answer)
            }
        };
        let words = match number {
            0 => kind.answers[answer].to_string(),
            _ => refused(number),
        };
        *self.0.entry((kind.name, words)).or_default() += 1;
    }

    /// All calls.
    pub fn calls(&self) -> u64 {
        self.0.values().sum()
    }

    fn count(&self, kind: &Kind, answer: &str) -> u64 {
        let key = (kind.name, answer.to_string());
        self.0.get(&key).copied().unwrap_or(0)
    }

    /// The answers that did not occur.
    pub fn missing(&self) -> Vec<String> {
        let mut missing = Vec::new();
        for kind in &KINDS {
            let answers = kind.every_answer().into_iter();
            let never = answers.filter(|answer| self.count(kind, answer) == 0);
            missing.extend(never.map(|answer| format!("{}: {answer}", kind.name)));
        }
        missing
    }

    /// One line: each call with its answers.
    pub fn line(&self) -> String {
        KINDS.each_ref().map(|kind| self.of_a_call(kind)).join("; ")
    }

    fn of_a_call(&self, kind: &Kind) -> String {
        let mut all = 0;
        let mut each = Vec::new();
        for answer in kind.every_answer() {
            let count = self.count(kind, &answer);
            all += count;
            each.push(format!("{answer}: {count}"));
        }
        format!("{} {all} ({})", kind.name, each.join(", "))
    }
}
