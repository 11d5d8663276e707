//! What is refused: document 02's order with the readings, each refusal at its edges and each two of them at once.

use crate::common::sections::{kind, number_in};
use crate::{sections, to_questions, to_reports};
use std::collections::BTreeSet;

/// 7 levels, each on a line that was heard and on one that was not.
#[test]
fn refusal_17() {
    let words = "refusal 17: levels beside the edges, and such as would be levels in two bytes";
    assert_eq!(to_reports(words)[0], "accepted 1");
    assert_eq!(to_reports(words)[1..], ["refused 17 0"; 14]);
}

/// 3 times, each later than the one before it, and two earlier ones after each of them.
#[test]
fn refusals_18_and_19() {
    let words = "refusals 18 and 19: a second earlier, and the first time";
    let reports = ["accepted 3", "refused 18 0", "refused 18 0"];
    assert_eq!(to_reports(words), reports.repeat(3));
    assert_eq!(to_questions(words), ["refused 19 0"; 6]);
}

/// 5 limits: of a line that was heard, of one that was not, and of a stranger.
#[test]
fn refusal_22() {
    let words = "refusal 22: limits beside the edges";
    assert_eq!(to_reports(words), ["accepted 1"]);
    assert_eq!(to_questions(words), ["refused 22 0"; 15]);
}

/// The lengths 0 to 20 but 16, in three ways each.
#[test]
fn refusal_23() {
    let words = "refusal 23: each length but the right one, of the levels, the times and both";
    assert_eq!(to_reports(words), ["refused 23 0"; 60]);
    assert_eq!(to_questions(words), ["refused 23 0"; 60]);
}

#[test]
fn refusal_16() {
    let words = "refusal 16: the empty code, and codes of 33 bytes and more";
    assert_eq!(to_reports(words), ["refused 16 0"; 3]);
    assert_eq!(to_questions(words), ["refused 16 0"; 3]);
}

/// The first code lands in block 0 and the second in block 1.
#[test]
fn refusal_13() {
    let words = "refusal 13: the place is the rank entry's";
    let reports = ["refused 13 0", "accepted 1", "accepted 0", "refused 13 1"];
    assert_eq!(to_reports(words), reports);
    let questions = ["refused 13 0", "fresh 1", "fresh 1", "refused 13 1"];
    assert_eq!(to_questions(words), questions);
}

/// Three lines are left of case 1's four. BC lands on line 3, which is not below n; lists of four places are too long.
#[test]
fn lists_that_belong_to_the_header() {
    let words = "a line less: the lists belong to the header";
    let reports = to_reports(words);
    let lines = ["accepted 0", "accepted 1", "accepted 2", "refused 13 0"];
    assert_eq!(reports[..4], lines);
    assert_eq!(reports[4..7], ["refused 23 0"; 3]);
    assert_eq!(reports[7..], ["refused 13 0"]);
    assert_eq!(to_questions(words)[..3], ["fresh 1"; 3]);
}

/// What a check is answered with, by the words in brackets after it.
fn answer(check: &str) -> String {
    match number_in(check) {
        "unknown" => "unknown".to_string(),
        number => format!("refused {number}"),
    }
}

/// Each of the ten checks of a call alone, and all 45 pairs of them: 45 = 9 + 8 + .. + 1.
#[test]
fn of_two_faults_the_first_is_answered() {
    for call in ["reporting", "asking"] {
        let mut alone = BTreeSet::new();
        let mut pairs = BTreeSet::new();
        for section in sections() {
            let Some(words) = section.words.strip_prefix(&format!("{call}: ")) else {
                continue;
            };
            assert!(!section.calls.is_empty(), "{words}");
            let first = match words.split_once(" before ") {
                Some((first, later)) => {
                    pairs.insert((first, later));
                    first
                }
                None => {
                    alone.insert(words);
                    words
                }
            };
            for (_, given) in &section.calls {
                assert_eq!(kind(given), answer(first), "{call}: {words}");
            }
        }
        assert_eq!((alone.len(), pairs.len()), (10, 45), "{call}");
    }
}
