//! The comparison without the library: the second program is equal to itself, and a program that differs from it
//! in one field or one byte is found out. The words about a difference hold what is needed to repeat it.

mod altered;
mod directory;
mod sign;

use altered::{Altered, UNALTERED};
use second::compare::{compare, Comparison, DsPart, Second};
use second::trial::answers;

/// Enough random calls for each difference below to be met, and for every answer to occur.
const CALLS: u64 = 10_000;
const MANY_CALLS: u64 = 40_000;

/// The words about the first difference in the random calls of a seed.
fn difference(program: Altered, seed: u64) -> String {
    let mut comparison = Comparison::new(&program);
    comparison
        .random(CALLS, seed)
        .expect_err("the difference is found")
}

/// Checks that a program is found out, and that the vectors in the words are answered.
fn assert_found_out(program: Altered, call: &str) {
    let words = difference(program, 1);
    let (_, vectors) = words
        .split_once("answers:\n")
        .expect("vectors after the words");
    let last = vectors.lines().last().expect("a call");
    assert!(last.starts_with(call), "{last}");
    answers(vectors.as_bytes()).expect("every line is a vector");
}

/// Changes a byte, if there is one, where a test wants it.
fn change(here: bool, byte: Option<&mut u8>) {
    if let (true, Some(byte)) = (here, byte) {
        *byte ^= 0x40;
    }
}

#[test]
fn the_second_program_is_equal_to_itself_and_every_answer_occurs() {
    let text = compare(&Second, 0, 3).expect("no difference");
    assert!(text.contains("refused 1: "), "{text}");
    assert!(text.contains("refused 16: "), "{text}");
    assert!(text.contains("refused 23: "), "{text}");
    assert!(text.ends_with(" calls, 0 different (seed 3)\n"), "{text}");
}

#[test]
fn random_calls_alone_have_every_answer() {
    let mut comparison = Comparison::new(&UNALTERED);
    comparison.random(MANY_CALLS, 5).expect("no difference");
    comparison.summary(5).expect("every answer occurred");
}

#[test]
fn too_few_calls_are_no_comparison() {
    let words = Comparison::new(&Second)
        .summary(1)
        .expect_err("nothing was compared");
    assert!(words.contains("build: refused 8"), "{words}");
    assert!(words.contains("build counted: built"), "{words}");
    assert!(words.contains("lookup: refused 16"), "{words}");
    assert!(words.contains("report: refused 18"), "{words}");
    assert!(words.contains("ask: stale"), "{words}");
}

#[test]
fn the_same_seed_makes_the_same_calls() {
    let show = |part: &mut DsPart| part.start += 1;
    let altered = Altered { show, ..UNALTERED };
    assert_eq!(difference(altered, 7), difference(altered, 7));
    assert_ne!(difference(altered, 7), difference(altered, 8));
}
