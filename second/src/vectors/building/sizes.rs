//! Builds at the edges of the sizes: no codes, the most codes, parts of one vertex, the smallest
//! and the largest weights, and codes that end in zero bytes.

use super::{build, built, round_trip};
use crate::random::Random;
use crate::sizes::{ARITIES, LONGEST_CODE, MOST_CODES, MOST_VERTICES};
use crate::vectors::inputs::{diagonal, owned, Input};
use crate::vectors::read_all;
use crate::vectors::script::Script;

pub fn write(script: &mut Script, random: &mut Random) {
    no_codes(script);
    parts_of_one_vertex(script);
    weights_that_are_all_alike(script);
    residues(script);
    zero_bytes(script);
    block_edges(script);
    most_codes(script, random);
}

fn input(codes: &[&[u8]], r: u64, v: u64, weights: &[u16]) -> Input {
    let mut input = Input::new(&owned(codes), r, v, weights);
    input.room += 2;
    input
}

/// m mod 4 is 2, 3, 2, 1, 0 and then that of the largest.
fn no_codes(script: &mut Script) {
    for (r, v) in [
        (2, 1),
        (3, 1),
        (3, 2),
        (3, 3),
        (2, 32),
        (2, 2_048),
        (3, 1_365),
    ] {
        script.comment(&format!("no codes: r = {r}, v = {v}"));
        let input = input(&[], r, v, &diagonal(r as usize));
        round_trip(script, &input, &[b"A", b"BCD"]);
    }
}

/// Every code names every vertex, so that one builds and two do not.
fn parts_of_one_vertex(script: &mut Script) {
    for r in ARITIES {
        script.comment(&format!("v = 1: r = {r}"));
        let weights: Vec<u16> = (0..32 * r).map(|i| 99 * i as u16 + 1).collect();
        round_trip(script, &input(&[b"GAUGE"], r, 1, &weights), &[b"G"]);
        build(script, &input(&[b"GAUGE", b"G"], r, 1, &weights));
    }
}

/// Weights of 65,535 bring the largest sum, 534,765,600.
fn weights_that_are_all_alike(script: &mut Script) {
    let codes: [&[u8]; 3] = [&[255; 32], &[255; 31], &[1]];
    for weight in [0, 1, 65_535] {
        for (r, v) in [(2, 2_047), (3, 1_365)] {
            script.comment(&format!("weights of {weight}: r = {r}, v = {v}"));
            let weights = vec![weight; LONGEST_CODE * r as usize];
            round_trip(script, &input(&codes, r, v, &weights), &[&[254; 32]]);
            round_trip(script, &input(&codes[..1], r, v, &weights), &[&[254; 32]]);
        }
    }
}

fn residues(script: &mut Script) {
    script.comment("weights of 65,535 and 300, and v = 7");
    let weights = [vec![65_535; 32], vec![300; 32]].concat();
    let input = input(&[&[255; 32], b"A"], 2, 7, &weights);
    if build(script, &input) {
        script.dump();
    }
}

fn zero_bytes(script: &mut Script) {
    script.comment("codes with zero bytes, at their end too");
    let weights: Vec<u16> = (0..96).map(|i| 257 * i + 11).collect();
    let codes: [&[u8]; 4] = [b"\0", b"\x01\0", b"\0\x01", b"\x01\x02\0\0"];
    let strangers: [&[u8]; 4] = [b"\0\0", b"\x01", b"\x01\x02", b"\x01\x02\0\0\0"];
    round_trip(script, &input(&codes, 3, 11, &weights), &strangers);
    script.comment("a code and the same with a zero byte more");
    build(script, &input(&[b"\x01", b"\x01\0"], 3, 11, &weights));
}

/// With p(0,0) = 1 a code of one byte k has vertex k and the first vertex of each other part. It
/// lands on vertex k.
fn block_edges(script: &mut Script) {
    for (r, v) in [
        (2, 31),
        (2, 32),
        (2, 33),
        (3, 21),
        (3, 22),
        (2, 64),
        (3, 43),
        (2, 130),
    ] {
        script.comment(&format!("blocks: r = {r}, v = {v}"));
        let bytes: Vec<[u8; 1]> = (0..v as u8).rev().step_by(3).map(|k| [k]).collect();
        let codes: Vec<&[u8]> = bytes.iter().map(|byte| &byte[..]).collect();
        let input = input(&codes, r, v, &diagonal(r as usize));
        round_trip(script, &input, &[&[v as u8]]);
    }
}

/// The least v here is near to where half of the lists are cyclic.
fn most_codes(script: &mut Script, random: &mut Random) {
    for (r, v) in [(2, 1_200), (2, 2_048), (3, 430), (3, 1_365)] {
        script.comment(&format!("1,024 codes: r = {r}, v = {v}"));
        let input = most_codes_that_build(r, v, random);
        build(script, &input);
        let (file, codes) = built(script, &input);
        read_all(script, &file, &[]);
        for code in codes {
            script.lookup(code);
        }
        script.list();
    }
    script.comment("1,024 codes, cyclic");
    for r in ARITIES {
        build(
            script,
            &random_codes(r, MOST_VERTICES as u64 / 5 / r, random),
        );
    }
}

fn random_codes(r: u64, v: u64, random: &mut Random) -> Input {
    let codes: Vec<Vec<u8>> = (0..MOST_CODES)
        .map(|k| vec![(k / 256) as u8, random.byte(), (k % 256) as u8])
        .collect();
    let weights: Vec<u16> = (0..LONGEST_CODE as u64 * r)
        .map(|_| random.below(65_536) as u16)
        .collect();
    Input::new(&codes, r, v, &weights)
}

/// Codes and weights are tried until they build.
fn most_codes_that_build(r: u64, v: u64, random: &mut Random) -> Input {
    loop {
        let input = random_codes(r, v, random);
        if input.build(&mut vec![0; input.room]).is_ok() {
            return input;
        }
    }
}
