//! What is refused: document 01's table with the readings, each refusal at its first and last place
//! and each two of them at once. Lengths are worked out by the document's formula.

use crate::common::sections::{kind, number_in};
use crate::{sections, to_builds};
use std::collections::BTreeSet;

fn with_places(number: u8, places: &[usize]) -> Vec<String> {
    places
        .iter()
        .map(|place| format!("refused {number} {place}"))
        .collect()
}

/// 9 arities with 3 part sizes, 14 part sizes, 10 numbers of weights, 2 numbers of codes.
#[test]
fn refusals_1_to_4() {
    for (words, number, count) in [
        ("refusal 1: r is not 2 or 3", 1, 27),
        ("refusal 2: v is 0 or r·v is over 4,096", 2, 14),
        ("refusal 3: the weights are not 32·r in number", 3, 10),
        ("refusal 4: more than 1,024 codes", 4, 2),
    ] {
        assert_eq!(to_builds(words), with_places(number, &vec![0; count]));
    }
}

/// The place is the lowest code at fault, and n where only the last end misses the run's length.
#[test]
fn refusal_5() {
    for (words, place) in [
        ("the first code is empty", 0),
        ("the only code is empty", 0),
        ("a code is empty", 1),
        ("the last code is empty", 2),
        ("an end falls", 1),
        ("the last end falls", 2),
        ("an end falls to 0", 1),
        ("the first end passes the run", 0),
        ("the last end passes the run", 1),
        ("an end passes the run by far", 1),
        ("the first code has 33 bytes", 0),
        ("the last code has 33 bytes", 1),
        ("33 bytes after 32", 1),
        ("the run is missed by a byte", 2),
        ("the run is missed by 33 bytes", 2),
        ("no codes, but a run", 0),
        ("of several faults the lowest", 2),
    ] {
        let given = to_builds(&format!("refusal 5: {words}"));
        assert_eq!(given, with_places(5, &[place; 2]), "{words}");
    }
}

#[test]
fn refusal_5_with_many_codes_and_long_runs() {
    for (words, places) in [
        ("code 0 of 1,024 is empty", &[0][..]),
        ("code 1 of 1,024 is empty", &[1]),
        ("code 512 of 1,024 is empty", &[512]),
        ("code 1023 of 1,024 is empty", &[1_023]),
        ("the last of 1,024 ends passes the run", &[1_023]),
        ("the last of 1,024 ends misses the run", &[1_024, 1_024]),
        ("a run of 65,536 bytes and no codes", &[0]),
        ("a run of 65,536 bytes and one code", &[1]),
        (
            "a run of 65,536 bytes which the last end does not reach",
            &[1],
        ),
        ("a run of 65,536 bytes which the codes miss", &[3]),
    ] {
        let given = to_builds(&format!("refusal 5: {words}"));
        assert_eq!(given, with_places(5, places), "{words}");
    }
}

/// 13 + 128 + 2 + 2 = 145 for r = 2, v = 4, and 13 + 192 + 16 + 2 = 223 for r = 3, v = 21, both
/// with 35 for each of 0, 1 and 4 codes; then the two longest files, and 3 and 2 codes at r = 2.
#[test]
fn refusal_6() {
    let mut needed = Vec::new();
    for length in [145, 223, 180, 258, 285, 363] {
        needed.extend([length; 3]);
    }
    needed.extend([37_133, 37_197, 250, 215]);
    let given = to_builds("refusal 6: the buffer is shorter than the file");
    assert_eq!(given, with_places(6, &needed));
}

/// A code that repeats one of the codes before it, at the places 1 to 3. BA with one zero byte more
/// and with two are other codes, with the vertices of BA.
#[test]
fn refusal_7() {
    let given = to_builds("refusal 7: a code equals an earlier one");
    assert_eq!(given, with_places(7, &[1, 2, 2, 3, 3, 3]));
    let given = to_builds("refusal 7: of several the lowest");
    assert_eq!(given, with_places(7, &[3, 1]));
    let given = to_builds("refusal 7: the last of 1,024 codes");
    assert_eq!(given, with_places(7, &[1_023, 1_023]));
    let given = to_builds("no refusal 7: a zero byte more is another code");
    assert_eq!(given, ["refused 8 3"]);
}

/// Of the 1,024 codes, all have a vertex of their own but the last and the one before it.
#[test]
fn refusal_8() {
    let given = to_builds("refusal 8: all of 2 to 1,024 codes are left");
    assert_eq!(given, with_places(8, &[2, 3, 1_024, 2, 3, 1_024]));
    assert_eq!(
        to_builds("refusal 8: two of 1,024 codes are left"),
        ["refused 8 2"]
    );
    assert_eq!(
        to_builds("refusal 8: more codes than vertices"),
        ["refused 8 3"]
    );
}

/// The places of the faults by themselves, two at r = 2 and two at r = 3. Code 1 is empty, or the
/// last of 4 ends misses the run; the lengths are 285 and, with 3 bytes of values, 13 + 192 + 3 +
/// 2 + 140 = 350; code 4 repeats another; all 4 are left, or 2 with the same vertices.
#[test]
fn each_refusal_alone() {
    for (words, places) in [
        ("the arity (1)", [0; 4]),
        ("the part size (2)", [0; 4]),
        ("the number of weights (3)", [0; 4]),
        ("the number of codes (4)", [0; 4]),
        ("the code list (5)", [1, 4, 1, 4]),
        ("the buffer (6)", [285, 285, 350, 350]),
        ("a repeated code (7)", [4; 4]),
        ("a cyclic list (8)", [4, 2, 4, 2]),
    ] {
        let number = number_in(words).parse().expect("a refusal number");
        assert_eq!(to_builds(words), with_places(number, &places), "{words}");
    }
}

/// All 28 pairs, in five ways each: 28 = 7 + 6 + .. + 1.
#[test]
fn of_two_refusals_the_first_is_given() {
    let mut pairs = BTreeSet::new();
    for section in sections() {
        let Some((first, later)) = section.words.split_once(" before ") else {
            continue;
        };
        let number = number_in(first);
        assert!(number < number_in(later));
        assert_eq!(section.calls.len(), 5);
        for (_, answer) in &section.calls {
            assert_eq!(
                kind(answer),
                format!("refused {number}"),
                "{first}, {later}"
            );
        }
        pairs.insert((first, later));
    }
    assert_eq!(pairs.len(), 28);
    assert_eq!(to_builds("all eight"), ["refused 1 0", "refused 1 0"]);
}
