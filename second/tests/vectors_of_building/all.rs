//! What all vectors of building have to hold: every answer often, at both arities, and every byte
//! of the buffer.

use crate::common::checksums::checksums;
use crate::common::sections::kind;
use crate::{sections, text};
use second::length;
use second::text::bytes_of_hex;
use second::trial::{answers, each_answer};
use std::collections::BTreeMap;

/// How often the builds of some sections are answered in each way at each arity.
fn counts(which: impl Fn(&str) -> bool) -> BTreeMap<(String, String), usize> {
    let mut counts = BTreeMap::new();
    let chosen = sections().iter().filter(|section| which(&section.words));
    for (call, answer) in chosen.flat_map(|section| &section.calls) {
        if let Some(numbers) = call.strip_prefix("B ") {
            let (r, _) = numbers.split_once(' ').expect("three numbers");
            let arity = if r == "2" || r == "3" { r } else { "another" };
            let way = (kind(answer), arity.to_string());
            *counts.entry(way).or_default() += 1;
        }
    }
    counts
}

fn assert_often(counts: &BTreeMap<(String, String), usize>, way: &str, arity: &str, times: usize) {
    let given = counts.get(&(way.to_string(), arity.to_string()));
    assert!(given >= Some(&times), "{way}, r = {arity}: {counts:?}");
}

/// Every answer is given often, and at both arities where they are allowed at all.
#[test]
fn every_answer_occurs_often() {
    let counts = counts(|_| true);
    for arity in ["2", "3"] {
        assert_often(&counts, "built", arity, 100);
        assert_often(&counts, "refused 8", arity, 100);
        for number in 2..=7 {
            assert_often(&counts, &format!("refused {number}"), arity, 6);
        }
    }
    assert_often(&counts, "refused 1", "another", 40);
    assert_eq!(counts.len(), 2 * 8 + 1, "{counts:?}");
}

/// Of the lists at random about half build and half are cyclic.
#[test]
fn lists_at_random() {
    let counts = counts(|words| words.starts_with("list "));
    assert!(counts.values().sum::<usize>() >= 500, "{counts:?}");
    for arity in ["2", "3"] {
        assert_often(&counts, "built", arity, 90);
        assert_often(&counts, "refused 8", arity, 90);
        assert_often(&counts, "refused 6", arity, 6);
        assert_often(&counts, "refused 7", arity, 6);
    }
}

/// By hand: 2·257 + 3 and 2·65,537 + 3; 257^2 + 257 + 1 and 65,537^2 + 65,537 + 1, which is
/// 4,295,163,907 and leaves 196,616.
#[test]
fn checksums_by_hand() {
    let vectors = b"C 2\nP 0 0102\nB 5 1 2\nC 0\nB 5 1 0\nB 5 1 3\n";
    let text = answers(vectors).expect("every line is a vector");
    assert_eq!(
        text,
        "refused 1 0 517 131077\nrefused 1 0 0 0\nrefused 1 0 66307 196616\n"
    );
}

/// The vectors with two more at each build, which show the whole buffer before and after it.
fn with_buffers_shown() -> String {
    let mut vectors = String::new();
    for line in text().lines() {
        let words: Vec<&str> = line.split(' ').collect();
        if let ["B", _, _, length] = words[..] {
            vectors += &format!("C {length}\nD\n{line}\nD\n");
        } else {
            vectors += &format!("{line}\n");
        }
    }
    vectors
}

fn bytes_shown(answer: &str) -> Vec<u8> {
    let digits = answer.trim_end().strip_prefix("shown ").unwrap_or("");
    bytes_of_hex(digits.as_bytes()).expect("hex digits")
}

/// Where a build is refused no byte changes, where it succeeds none after the file, and the
/// checksums are those of what is shown. Before a build some byte is not zero.
#[test]
fn every_byte_of_the_buffer() {
    let vectors = with_buffers_shown();
    let answers = each_answer(vectors.as_bytes()).expect("every line is a vector");
    let mut n = 0;
    for (k, line) in vectors.lines().enumerate() {
        let words: Vec<&str> = line.split(' ').collect();
        if words[0] == "E" {
            n = words.len() as u64 - 1;
        }
        let ["B", r, v, _] = words[..] else {
            continue;
        };
        let before = bytes_shown(&answers[k - 1]);
        let after = bytes_shown(&answers[k + 1]);
        assert!(before.is_empty() || before.iter().any(|&byte| byte != 0));
        let answer = answers[k].trim_end();
        let [first, second] = checksums(&after);
        assert!(answer.ends_with(&format!(" {first} {second}")));
        let changed = if answer.starts_with("built") {
            let number = |word: &str| word.parse().expect("a number");
            length(n, number(r), number(v)).expect("sizes that are allowed")
        } else {
            0
        };
        assert_eq!(before[changed..], after[changed..], "{line}: {answer}");
    }
}

/// One end and one weight more than a vector may have.
#[test]
fn lists_that_are_too_long() {
    for (letter, most) in [("E", 2_048), ("W", 128)] {
        let vector = format!("{letter}{}\n", " 1".repeat(most));
        assert_eq!(answers(vector.as_bytes()), Ok(String::new()));
        let vector = format!("{letter}{}\n", " 1".repeat(most + 1));
        assert!(answers(vector.as_bytes()).is_err());
    }
}
