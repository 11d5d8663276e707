//! Lists that pin the most codes waiting at once: all of them from the start, the most after a later step,
//! and never more than two.

use super::{build, round_trip};
use crate::sizes::{MOST_VERTICES, WEIGHTS_OF_A_PART};
use crate::vectors::inputs::{diagonal, many, owned, Input};
use crate::vectors::script::Script;

/// Bytes of the buffer after the file.
const TO_SPARE: usize = 3;

pub fn write(script: &mut Script) {
    no_vertex_is_shared(script);
    no_vertex_is_shared_by_the_most_codes(script);
    the_most_after_a_step(script);
    chains(script);
}

/// Builds a list under the weights p(j,j) = 1, and reads it.
fn list(script: &mut Script, words: &str, codes: &[&[u8]], r: usize, v: u64) {
    script.comment(&format!("most waiting: {words}"));
    let mut input = Input::new(&owned(codes), r as u64, v, &diagonal(r));
    input.room += TO_SPARE;
    round_trip(script, &input, &[]);
}

/// All codes wait from the start, and nothing ever joins.
fn no_vertex_is_shared(script: &mut Script) {
    let codes: [&[u8]; 4] = [b"DD", b"AA", b"BB", b"CC"];
    list(script, "no vertex is shared, r = 2", &codes, 2, 4);
    let codes: [&[u8]; 3] = [b"AAA", b"CCC", b"EEE"];
    list(script, "no vertex is shared, r = 3", &codes, 3, 5);
}

/// Code k has the bytes k div 256 and k mod 256: under the weights 256 and 1 it names vertex k of each part.
fn no_vertex_is_shared_by_the_most_codes(script: &mut Script) {
    for r in [2, 3] {
        script.comment(&format!("most waiting: all of 1,024 codes, r = {r}"));
        let mut weights = vec![0; WEIGHTS_OF_A_PART * r];
        for part in weights.chunks_mut(WEIGHTS_OF_A_PART) {
            part[..2].copy_from_slice(&[256, 1]);
        }
        let v = MOST_VERTICES / r;
        build(script, &Input::new(&many(), r as u64, v as u64, &weights));
    }
}

/// A removed code leaves two others alone on a vertex; at r = 2 it leaves at most one.
fn the_most_after_a_step(script: &mut Script) {
    let codes: [&[u8]; 7] = [b"BBC", b"BAB", b"ACC", b"DAA", b"DBB", b"BCB", b"ADA"];
    let words = "one from the start, the most after three steps";
    list(script, words, &codes, 3, 4);
}

/// Two are the fewest wherever two codes or more build: the last two differ in a vertex, so that both wait.
fn chains(script: &mut Script) {
    let codes: [&[u8]; 5] = [b"DD", b"AD", b"AA", b"BA", b"BB"];
    list(script, "a chain, taken from both ends", &codes, 2, 4);
    let codes: [&[u8]; 7] = [b"BAB", b"CCB", b"CCC", b"CBA", b"ABC", b"AAA", b"AAC"];
    let words = "one at a time for three steps, then two";
    list(script, words, &codes, 3, 3);
}
