//! Lists that build and in which more codes wait after some step than at the start, which random lists hardly ever do.

use crate::inputs::{lent, Input, LONGEST};
use second::graph::peel;
use second::random::Random;
use second::vertices::vertices;

/// At arity 2 a removed code lets at most one join, so that the most wait at the start.
const R: usize = 3;

/// Part sizes and numbers of codes at which some lists do, small enough for the checker to compute.
const PARTS: [u64; 2] = [2, 3];
const COUNTS: [usize; 2] = [4, 5];

/// Random lists are tried until one does.
pub fn input(random: &mut Random) -> Input {
    let weights = diagonal();
    loop {
        let v = random.one_of(&PARTS);
        let codes = codes(random.one_of(&COUNTS), v, random);
        if grows(&codes, &weights, v as usize) {
            return lent(codes, R as u64, v, weights);
        }
    }
}

/// The weights with p(j,j) = 1 and 0 elsewhere: byte j alone decides vertex j.
fn diagonal() -> Vec<u16> {
    let mut weights = vec![0; LONGEST as usize * R];
    for j in 0..R {
        weights[LONGEST as usize * j + j] = 1;
    }
    weights
}

/// Codes of a byte for each part.
fn codes(count: usize, v: u64, random: &mut Random) -> Vec<Vec<u8>> {
    let mut letter = || b'A' + random.below(v) as u8;
    (0..count)
        .map(|_| (0..R).map(|_| letter()).collect())
        .collect()
}

/// Whether a list builds and more codes wait later than at the start.
fn grows(codes: &[Vec<u8>], weights: &[u16], v: usize) -> bool {
    let named: Vec<Vec<usize>> = codes
        .iter()
        .map(|code| vertices(code, weights, R, v))
        .collect();
    let peeled = peel(&named);
    peeled.removal_list.len() == codes.len() && peeled.most_waiting > at_the_start(&named)
}

/// The number of codes with a vertex that no other names.
fn at_the_start(named: &[Vec<usize>]) -> usize {
    let all: Vec<usize> = named.concat();
    let alone = |vertex: &usize| all.iter().filter(|&other| other == vertex).count() == 1;
    named
        .iter()
        .filter(|vertices| vertices.iter().any(alone))
        .count()
}
