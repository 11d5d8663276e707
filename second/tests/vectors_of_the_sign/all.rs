//! What all vectors of the sign have to hold: every answer often, traces that are long enough, and every byte of the
//! lists.

use crate::common::sections::kind;
use crate::replayed::replayed;
use crate::{sections, text, SEED, TRACES};
use second::trial::{answers, each_answer};
use second::vectors::signs;
use std::collections::BTreeMap;

/// The answers that each call can give.
const WANTED: [(&str, &[&str]); 2] = [
    (
        "A",
        &[
            "accepted",
            "unknown",
            "refused 9",
            "refused 10",
            "refused 11",
            "refused 13",
            "refused 16",
            "refused 17",
            "refused 18",
            "refused 23",
        ],
    ),
    (
        "Q",
        &[
            "never",
            "fresh",
            "stale",
            "unknown",
            "refused 9",
            "refused 10",
            "refused 11",
            "refused 13",
            "refused 16",
            "refused 19",
            "refused 22",
            "refused 23",
        ],
    ),
];

#[test]
fn the_same_vectors_each_time() {
    assert!(signs(SEED, TRACES) == text());
    assert!(signs(SEED + 1, TRACES) != text());
}

/// Each answer is given often to the calls that can give it, and no other.
#[test]
fn every_answer_occurs_often() {
    let mut counts: BTreeMap<(&str, String), usize> = BTreeMap::new();
    for (call, answer) in sections().iter().flat_map(|section| &section.calls) {
        *counts.entry((&call[..1], kind(answer))).or_default() += 1;
    }
    let mut kinds = 0;
    for (letter, answers) in WANTED {
        for answer in answers {
            let count = counts.get(&(letter, answer.to_string()));
            assert!(count >= Some(&12), "{letter}, {answer}: {counts:?}");
            kinds += 1;
        }
    }
    assert_eq!(counts.len(), kinds, "{counts:?}");
}

/// 12 traces of 200 calls and more: six over an opened file, three over one that does not open, and three over files and
/// lists that change. Over an opened file no call is refused with 9 to 13.
#[test]
fn traces() {
    let mut kinds: BTreeMap<&str, usize> = BTreeMap::new();
    for section in sections() {
        let Some((number, words)) = section.words.split_once(": ") else {
            continue;
        };
        if !number.starts_with("trace ") {
            continue;
        }
        let (words, _) = words.split_once(',').expect("a number of lines");
        *kinds.entry(words).or_default() += 1;
        assert!(section.calls.len() >= 200, "{number}");
        for (call, answer) in &section.calls {
            let of_the_file = ["refused 9", "refused 10", "refused 11", "refused 13"];
            let refused = of_the_file.contains(&&kind(answer)[..]);
            assert!(words != "an opened file" || !refused, "{call}: {answer}");
        }
    }
    let expected = [
        ("an opened file", 6),
        ("an unopened file", 3),
        ("what changes", 3),
    ];
    assert_eq!(kinds, BTreeMap::from(expected));
}

/// Every answer and every byte of the lists, by what the calls mean on the bytes that are held.
#[test]
fn replayed_by_the_words() {
    let given = each_answer(text().as_bytes()).expect("every line is a vector");
    for ((line, given), right) in text().lines().zip(given).zip(replayed(text())) {
        assert_eq!(given, right, "{line}");
    }
}

/// By hand, of one place: the factors of the bytes are 16,974,593, 66,049, 257 and 1, and by the second rule 65,537^3 and
/// 65,537^2, which leave 524,304 and 131,078, then 65,537 and 1. Cleared, the bytes and 1 are 49 118 1 1 and 1 1 1 1;
/// then they are 256 256 256 256, where the first sum is 4,362,470,400 and leaves 67,503,109, and 2 1 1 1.
#[test]
fn checksums_by_hand() {
    let vectors = b"K 1\nA 42 1 1\nX 0 ffffffff\nY 0 01\nA 42 1 1\n";
    let text = answers(vectors).expect("every line is a vector");
    assert_eq!(
        text,
        "refused 9 0 839549097 41223638 17040900 720920\nrefused 9 0 67503109 184555520 34015493 1245224\n"
    );
}

#[test]
fn what_is_no_vector() {
    for line in [
        "K",
        "K x",
        "K 1027",
        "V",
        "V 4105",
        "U 4105",
        "X 0 00",
        "Y 0 00",
        "Y 0",
        "A",
        "A 00 1",
        "A 00 1 2 3",
        "A 0 1 1",
        "A 00 x 1",
        "A 00 - 1",
        "A 00 --1 1",
        "A 00 +1 1",
        "A 00 2147483648 1",
        "A 00 -2147483649 1",
        "A 00 1 -1",
        "A 00 1 4294967296",
        "Q 00 1",
        "Q 00 -1 1",
        "Q 00 1 -1",
        "Q 00 4294967296 1",
        "Q 00 1 4294967296",
    ] {
        let fault = answers(format!("K 0\n{line}\n").as_bytes()).expect_err("no vector");
        assert_eq!(fault, format!("line 2 is no vector: `{line}`"));
    }
}

/// The most places and bytes that a list may have, and the ends of the numbers.
#[test]
fn what_is_still_a_vector() {
    let vectors =
        b"K 1026\nV 4104\nU 4104\nX 4103 00\nY 4103 00\nQ 00 4294967295 4294967295\nQ  0 0\n";
    assert_eq!(
        answers(vectors),
        Ok("refused 9 0\nrefused 9 0\n".to_string())
    );
    for level in ["2147483647", "-2147483648", "-0"] {
        let answer = answers(format!("A 00 {level} 4294967295\n").as_bytes());
        assert_eq!(answer, Ok("refused 9 0 0 0 0 0\n".to_string()));
    }
}
