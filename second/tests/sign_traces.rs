//! Random traces of calls to the sign. Over one opened file and from cleared lists it answers as the plain map does;
//! over any bytes and with any lists as document 02's words say, each taken by itself.

mod common;

use common::meaning::{lists_after, of_a_question, of_a_report};
use common::refusal;
use common::signs::Sign;
use second::random::Random;
use second::sign::PlainMap;
use second::vectors::traces::{damaged, opened_file, SignCall, Trace};
use second::{open, show, Refusal};
use std::collections::BTreeMap;
use std::fmt::Debug;

const TRACES: u64 = 200;
const CALLS: usize = 250;

/// The answers that each call can give over an opened file, with lists that have its places.
const REPORTED: [&str; 5] = [
    "Accepted",
    "Unknown",
    "refused 16",
    "refused 17",
    "refused 18",
];
const ASKED: [&str; 7] = [
    "Never",
    "Fresh",
    "Stale",
    "Unknown",
    "refused 16",
    "refused 19",
    "refused 22",
];

/// The answer to other lists, and those to files that do not open.
const OTHER_LISTS: [&str; 1] = ["refused 23"];
const UNOPENED: [&str; 4] = ["refused 9", "refused 10", "refused 11", "refused 13"];

/// How often each answer was given to each call.
#[derive(Default)]
struct Counts(BTreeMap<(&'static str, String), usize>);

impl Counts {
    fn add<T: Debug>(&mut self, call: &'static str, answer: &Result<T, Refusal>) {
        let kind = match answer {
            Ok(answer) => {
                let words = format!("{answer:?}");
                words.split(['(', ' ']).next().unwrap_or("").to_string()
            }
            Err(refusal) => format!("refused {}", refusal.number),
        };
        *self.0.entry((call, kind)).or_default() += 1;
    }

    /// Checks that the answers of an opened file and these others were given to both calls, each so often at least,
    /// and no more than these.
    fn assert_often(&self, others: &[&str], times: usize) {
        let mut kinds = 0;
        for (call, answers) in [("report", &REPORTED[..]), ("ask", &ASKED)] {
            for &answer in answers.iter().chain(others) {
                let count = self.0.get(&(call, answer.to_string()));
                assert!(count >= Some(&times), "{call}, {answer}: {:?}", self.0);
                kinds += 1;
            }
        }
        assert_eq!(self.0.len(), kinds, "{:?}", self.0);
    }
}

/// The sign of a file that opens with cleared lists, its codes, and the plain map of the codes in the order in which
/// the lines are shown.
fn opened_sign(random: &mut Random) -> (Sign, Vec<Vec<u8>>, PlainMap) {
    let (codes, file) = opened_file(random);
    let n = open(&file).expect("a file that opens").n;
    let shown = (0..n).map(|line| show(&file, line as u64).of(&file).to_vec());
    let map = PlainMap::new(shown.collect());
    (Sign::cleared(file, n), codes, map)
}

/// A refused call between the others: a list is a byte short or a place too long, and the lists stay as they are.
fn call_with_wrong_lists(sign: &Sign, code: &[u8], random: &mut Random) {
    let mut wrong = sign.clone();
    let list = random.one_of(&[0, 1]);
    let lists = [&mut wrong.levels, &mut wrong.times];
    let length = sign.levels.len();
    lists[list].resize(random.one_of(&[length - 1, length + 4]), 0);
    let before = wrong.clone();
    assert_eq!(wrong.report(code, 1, u32::MAX), Err(refusal(23, 0)));
    assert_eq!(wrong, before, "the lists change");
    assert_eq!(wrong.ask(code, u32::MAX, 1), Err(refusal(23, 0)));
}

/// Makes a call to the sign and to the map.
fn assert_equal(sign: &mut Sign, map: &mut PlainMap, call: SignCall, counts: &mut Counts) {
    match call {
        SignCall::Report(code, report) => {
            let answer = sign.report(&code, report.level, report.time);
            assert_eq!(answer, map.report(&code, report));
            counts.add("report", &answer);
        }
        SignCall::Ask { code, now, limit } => {
            let answer = sign.ask(&code, now, limit);
            assert_eq!(answer, map.ask(&code, now, limit));
            counts.add("ask", &answer);
        }
    }
}

#[test]
fn over_an_opened_file_the_sign_is_a_plain_map() {
    let mut counts = Counts::default();
    for seed in 0..TRACES {
        let random = &mut Random::new(seed);
        let (mut sign, codes, mut map) = opened_sign(random);
        let mut trace = Trace::new(&codes, random);
        for _ in 0..CALLS {
            assert_equal(&mut sign, &mut map, trace.next(random), &mut counts);
            if random.below(20) == 0 {
                call_with_wrong_lists(&sign, &codes[0], random);
            }
        }
        for code in codes {
            let (now, limit) = (u32::MAX, 1);
            let last = SignCall::Ask { code, now, limit };
            assert_equal(&mut sign, &mut map, last, &mut counts);
        }
    }
    counts.assert_often(&[], 400);
}

/// Changes what is lent between two calls: now and then a byte of the file, the whole file back to what it was, bytes
/// of the lists or a list's length.
fn meddle(sign: &mut Sign, file: &[u8], random: &mut Random) {
    let places = open(file).expect("a file that opens").n;
    match random.below(40) {
        0..5 => sign.file = damaged(file, random),
        5 => sign.file.truncate(random.index(file.len())),
        6 => sign.file.push(0),
        7 => sign.file = file.to_vec(),
        8 | 9 => put_junk(&mut sign.levels, random),
        10 | 11 => put_junk(&mut sign.times, random),
        12 => sign.levels.resize(random.index(4 * places + 6), 0),
        13 => sign.times.resize(random.index(4 * places + 6), 0),
        14 | 15 => *sign = Sign::cleared(sign.file.clone(), places),
        _ => (),
    }
}

/// Any bytes, or small ones, from a place on.
fn put_junk(list: &mut [u8], random: &mut Random) {
    let start = random.index(list.len() + 1);
    let end = (start + 1 + random.index(8)).min(list.len());
    let small = random.below(2) == 0;
    for byte in &mut list[start..end] {
        *byte = if small { 0 } else { random.byte() };
    }
}

/// Makes a call, and checks its answer and every byte of the lists.
fn assert_meant(sign: &mut Sign, call: SignCall, counts: &mut Counts) {
    match call {
        SignCall::Report(code, report) => {
            let right = of_a_report(sign, &code, report);
            let after = lists_after(sign, right, report);
            assert_eq!(sign.report(&code, report.level, report.time), right);
            assert_eq!(*sign, after);
            counts.add("report", &right);
        }
        SignCall::Ask { code, now, limit } => {
            let right = of_a_question(sign, &code, now, limit);
            assert_eq!(sign.ask(&code, now, limit), right);
            counts.add("ask", &right);
        }
    }
}

#[test]
fn over_any_bytes_the_sign_does_what_the_words_say() {
    let mut of_opened_files = Counts::default();
    let mut of_unopened_files = Counts::default();
    for seed in 0..TRACES {
        let random = &mut Random::new(TRACES + seed);
        let (mut sign, codes, _) = opened_sign(random);
        let file = sign.file.clone();
        let mut trace = Trace::new(&codes, random);
        for _ in 0..CALLS {
            meddle(&mut sign, &file, random);
            let counts = match open(&sign.file) {
                Ok(_) => &mut of_opened_files,
                Err(_) => &mut of_unopened_files,
            };
            assert_meant(&mut sign, trace.next(random), counts);
        }
    }
    of_opened_files.assert_often(&OTHER_LISTS, 60);
    of_unopened_files.assert_often(&[&OTHER_LISTS[..], &UNOPENED].concat(), 60);
}
