//! Each two of the refusals 1 to 8 at once: the lower number is given.

use super::build;
use crate::sizes::{ARITIES, MOST_CODES};
use crate::vectors::inputs::{diagonal, owned, Input, CASE_1};
use crate::vectors::script::Script;

/// Puts what a refusal is given for into an input.
type Fault = fn(&mut Input);

/// Each refusal with its number in words, and two ways to it. They can be put together if the
/// higher number goes in first.
const KINDS: [(&str, [Fault; 2]); 8] = [
    (
        "the arity (1)",
        [|input| input.r = 5, |input| input.r = u64::MAX],
    ),
    (
        "the part size (2)",
        [|input| input.v = 0, |input| input.v = 2_049],
    ),
    (
        "the number of weights (3)",
        [
            |input| input.weights.truncate(32),
            |input| input.weights.push(0),
        ],
    ),
    (
        "the number of codes (4)",
        [|input| many(input, 1), |input| many(input, 2)],
    ),
    (
        "the code list (5)",
        [
            |input| input.ends.insert(1, input.ends[0]),
            |input| input.run.push(0),
        ],
    ),
    (
        "the buffer (6)",
        [|input| input.room = 0, |input| input.room = SHORTEST - 1],
    ),
    (
        "a repeated code (7)",
        [|input| again(input, b"BA"), |input| again(input, b"BC")],
    ),
    (
        "a cyclic list (8)",
        [|input| input.weights.fill(0), |input| again(input, b"BA\0")],
    ),
];

/// The shortest file: r = 2, v = 1 and no codes.
const SHORTEST: usize = 144;

/// Room for case 1's file with more than 1,024 codes, if there were one.
const AMPLE: usize = 36_300;

/// Codes after the last, so that there are this many more than there may be.
fn many(input: &mut Input, more: usize) {
    let last = input.ends[input.ends.len() - 1];
    let missing = MOST_CODES + more - input.ends.len();
    let place = usize::from(last);
    input.run.splice(place..place, vec![0; missing]);
    input.ends.extend((1..=missing as u16).map(|k| last + k));
}

/// A code after the last.
fn again(input: &mut Input, code: &[u8]) {
    input.run.extend_from_slice(code);
    input.ends.push(input.run.len() as u16);
}

pub fn write(script: &mut Script) {
    for (k, (words, [first, second])) in KINDS.iter().enumerate() {
        script.comment(words);
        for r in ARITIES {
            for fault in [first, second] {
                together(script, r, &[fault]);
            }
        }
        for (later_words, later_faults) in &KINDS[k + 1..] {
            script.comment(&format!("{words} before {later_words}"));
            for later in later_faults {
                together(script, 2, &[later, first]);
                together(script, 2, &[later, second]);
            }
            together(script, 3, &[&later_faults[1], first]);
        }
    }
    script.comment("all eight");
    for r in ARITIES {
        let all: Vec<&Fault> = KINDS.iter().rev().map(|(_, faults)| &faults[0]).collect();
        together(script, r, &all);
    }
}

/// Case 1 at an arity, with these faults.
fn together(script: &mut Script, r: u64, faults: &[&Fault]) {
    let mut input = Input::new(&owned(&CASE_1), r, 4, &diagonal(r as usize));
    input.room = AMPLE;
    for fault in faults {
        fault(&mut input);
    }
    build(script, &input);
}
