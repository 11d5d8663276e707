//! The vectors of reading and their answers: what has to occur in them, and the answers that
//! document 01 and the readings give to the vectors that have a name. Those are typed by hand.

mod common;

use common::sections::{answered, kind, number_in, Section};
use second::trial::answers;
use second::vectors::vectors;
use std::collections::{BTreeMap, BTreeSet};
use std::sync::OnceLock;

/// The seed and the number of lists that `tools/make-vectors` takes.
const SEED: u64 = 1;
const LISTS: u64 = 16;

/// What the calls of one letter are answered with, at least once each.
const WANTED: [(&str, &[&str]); 6] = [
    (
        "O",
        &[
            "opened",
            "refused 9",
            "refused 10",
            "refused 11",
            "refused 12",
            "refused 13",
            "refused 14",
            "refused 15",
        ],
    ),
    ("H", &["opened", "refused 9", "refused 10", "refused 11"]),
    (
        "L",
        &[
            "at",
            "unknown",
            "refused 9",
            "refused 10",
            "refused 11",
            "refused 13",
            "refused 16",
        ],
    ),
    ("S", &["shown", "nothing"]),
    ("N", &["length"]),
    ("G", &["group"]),
];

/// The vectors of the trial, made once for all tests.
fn text() -> &'static str {
    static TEXT: OnceLock<String> = OnceLock::new();
    TEXT.get_or_init(|| vectors(SEED, LISTS))
}

/// The sections of the vectors, answered once for all tests.
fn sections() -> &'static [Section] {
    static SECTIONS: OnceLock<Vec<Section>> = OnceLock::new();
    SECTIONS.get_or_init(|| answered(text()))
}

fn answers_to(letter: &str, words: &str) -> Vec<&'static str> {
    common::sections::answers_to(sections(), letter, words)
}

#[test]
fn the_same_vectors_each_time() {
    assert!(vectors(SEED, LISTS) == text());
    assert!(vectors(SEED + 1, LISTS) != text());
}

#[test]
fn every_answer_occurs() {
    let mut given: BTreeMap<String, BTreeSet<String>> = BTreeMap::new();
    let mut number_of_calls = 0;
    for (call, answer) in sections().iter().flat_map(|section| &section.calls) {
        number_of_calls += 1;
        given
            .entry(call[..1].to_string())
            .or_default()
            .insert(kind(answer));
    }
    assert!(number_of_calls >= 2_000, "{number_of_calls} calls");
    let wanted: BTreeMap<String, BTreeSet<String>> = WANTED
        .iter()
        .map(|(letter, kinds)| {
            let kinds = kinds.iter().map(|kind| kind.to_string()).collect();
            (letter.to_string(), kinds)
        })
        .collect();
    assert_eq!(given, wanted);
}

/// Case 1's file has n = 4, so that the lines 4 and 5 show nothing.
#[test]
fn the_worked_cases() {
    let case_1 = "case 1, and the strangers of cases 2 and 3";
    assert_eq!(answers_to("O", case_1), ["opened 4 2 4"]);
    assert_eq!(answers_to("H", case_1), ["opened 4 2 4"]);
    let found = ["at 1", "at 2", "at 0", "at 3", "unknown", "unknown"];
    assert_eq!(answers_to("L", case_1), found);
    assert_eq!(
        answers_to("S", case_1),
        [
            "shown 4441",
            "shown 4241",
            "shown 4242",
            "shown 4243",
            "nothing",
            "nothing"
        ]
    );
    assert_eq!(answers_to("L", "case 4"), ["at 0", "unknown"]);
    assert_eq!(answers_to("O", "case 9"), ["opened 0 2 4"]);
    assert_eq!(answers_to("L", "case 9"), ["unknown"]);
    assert_eq!(answers_to("S", "case 9"), ["nothing", "nothing"]);
    assert_eq!(answers_to("L", "case 10"), ["at 0", "unknown"]);
    let case_11 = "case 11: a code of 32 bytes, and 31 and 33 of them";
    let found = ["at 0", "unknown", "unknown", "refused 16 0"];
    assert_eq!(answers_to("L", case_11), found);
}

/// The answers are those of `tests/witnesses.rs`, where each is worked out.
#[test]
fn the_witnesses() {
    let five_codes = "r = 3, v = 5: the order j = 0, 1, .. decides the lines";
    let found = ["at 2", "at 1", "at 3", "at 4", "at 0"];
    assert_eq!(answers_to("L", five_codes), found);
    let reading_20 = "reading 20: a stored code that lands on an unassigned vertex";
    assert_eq!(answers_to("O", reading_20), ["refused 15 0"]);
    assert_eq!(answers_to("L", reading_20), ["unknown"]);
    let reading_21 = "reading 21: a stranger's file over a cyclic graph";
    assert_eq!(answers_to("O", reading_21), ["opened 4 2 4"]);
    let found = ["at 0", "at 1", "at 2", "at 3", "unknown"];
    assert_eq!(answers_to("L", reading_21), found);
    let reading_22 = "reading 22: no codes, but assigned values";
    assert_eq!(answers_to("O", reading_22), ["refused 13 1"]);
    assert_eq!(
        answers_to("L", reading_22),
        ["refused 13 0", "refused 13 0"]
    );
    let reading_23 = "reading 23: 13 at lookup names the rank entry of the landing vertex";
    let found = answers_to("L", reading_23);
    assert_eq!(found[..2], ["at 0", "refused 13 1"]);
    let more_codes = "more codes than vertices";
    assert_eq!(answers_to("O", more_codes), ["refused 13 1"]);
}

/// Every fault that stands alone is found by the check that is named with it, at every place that
/// has to be tried. By hand, for the file with n = 5, r = 2, v = 35 (m = 70): GV at 7 + 130, RK
/// at 137 + 2 + 18, KY at 157 + 2 + 4 and 4·35 further on. For n = 6, r = 3, v = 47 (m = 141): GV
/// at 7 + 194, RK at 201 + 2 + 36, KY at 239 + 2 + 6 and 5·35 further on.
#[test]
fn each_fault_alone_at_its_first_and_last_place() {
    for (words, places) in [
        ("under 7 bytes (9)", &[0][..]),
        ("the HD mark (10)", &[0]),
        ("header numbers (11)", &[0]),
        ("the length (9)", &[0]),
        (
            "the other marks (10)",
            &[7, 137, 141, 145, 250, 157, 163, 303, 201, 239, 247, 422],
        ),
        ("values and spare bits (12)", &[0, 7, 69, 70, 141]),
        ("rank entries and the total (13)", &[0, 1, 2, 3]),
        ("stored lengths and filling (14)", &[0, 3, 4, 5]),
        ("codes that lead astray (15)", &[0, 3, 4, 5]),
    ] {
        let number = number_in(words);
        let wanted: BTreeSet<String> = places
            .iter()
            .map(|place| format!("refused {number} {place}"))
            .collect();
        let given: BTreeSet<String> = answers_to("O", words)
            .into_iter()
            .map(str::to_string)
            .collect();
        assert_eq!(given, wanted, "{words}");
    }
}

/// All 36 pairs of the nine checks of opening, in three files each: 36 = 8 + 7 + .. + 1.
#[test]
fn of_two_faults_the_first_is_given() {
    let mut pairs = BTreeSet::new();
    for section in sections() {
        let Some((first, later)) = section.words.split_once(" before ") else {
            continue;
        };
        if later == "it" {
            continue;
        }
        let number = number_in(first);
        for (call, answer) in &section.calls {
            if call == "O" {
                assert_eq!(
                    kind(answer),
                    format!("refused {number}"),
                    "{first}, {later}"
                );
            }
        }
        pairs.insert((first.to_string(), later.to_string()));
    }
    assert_eq!(pairs.len(), 36);
}

/// By document 01's table, row by row; 0 and 17 are no refusals.
#[test]
fn groups_and_meanings() {
    let given = answers_to(
        "G",
        "refusal numbers: their groups, and what their places mean",
    );
    let wanted = [
        "group none nothing",
        "group building nothing",
        "group building nothing",
        "group building nothing",
        "group building nothing",
        "group building code",
        "group building length-needed",
        "group building code",
        "group building codes-left",
        "group opening nothing",
        "group opening offset",
        "group opening nothing",
        "group opening vertex",
        "group opening rank-entry",
        "group opening line",
        "group opening line",
        "group looking-up nothing",
        "group sign nothing",
        "group sign nothing",
        "group sign nothing",
        "group none nothing",
        "group none nothing",
        "group sign nothing",
        "group sign nothing",
        "group none nothing",
    ];
    assert_eq!(given[..wanted.len()], wanted);
    assert!(given[wanted.len()..]
        .iter()
        .all(|&answer| answer == wanted[0]));
}

#[test]
fn a_change_and_a_call() {
    let vectors =
        b"# a file of seven bytes\nC 7\nP 0 4844\nP 4 020100\nH\nC 6\nO\nS 0\nL\nN 0 2 1\n";
    let text = answers(vectors).expect("every line is a vector");
    assert_eq!(
        text,
        "refused 9 0\nrefused 9 0\nnothing\nrefused 9 0\nlength 144\n"
    );
}

#[test]
fn what_is_no_vector() {
    for line in [
        "",
        "Q",
        "O ",
        "O 1",
        "C",
        "C x",
        "C 65537",
        "P 0 00",
        "P 0",
        "L 0",
        "L 0g",
        "S",
        "S -1",
        "N 1 2",
        "G 256",
        "F",
        "F 256",
        "R 0",
        "R 00 00",
        "Z",
        "Z 65537",
        "E ",
        "E 65536",
        "E x",
        "W 1  1",
        "B 2 4",
        "B 2 4 65537",
        "B 2 4 x",
        "T 1",
        "D 1",
    ] {
        let fault = answers(format!("O\n{line}\n").as_bytes()).expect_err("no vector");
        assert_eq!(fault, format!("line 2 is no vector: `{line}`"));
    }
}
