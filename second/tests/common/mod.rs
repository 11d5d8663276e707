//! What the tests share: the input of a build as one thing, document 01's usual weights, case 1's
//! list and file, and lists of the most codes. Each test file uses a part of it.
#![allow(dead_code)]

pub mod checksums;
pub mod meaning;
pub mod peeling;
pub mod sections;
pub mod signs;

use second::text::run_and_ends;
use second::{build, length, open, Built, CodeList, Header, Refusal};

/// Everything a build is given.
#[derive(Clone)]
pub struct Input {
    pub run: Vec<u8>,
    pub ends: Vec<u16>,
    pub r: u64,
    pub v: u64,
    pub weights: Vec<u16>,
    pub buffer: Vec<u8>,
}

impl Input {
    /// An input with a buffer of exactly the file's length (empty where the sizes allow no file).
    pub fn new(codes: &[&[u8]], r: u64, v: u64, weights: &[u16]) -> Input {
        let codes: Vec<Vec<u8>> = codes.iter().map(|code| code.to_vec()).collect();
        let (run, ends) = run_and_ends(&codes);
        let needed = length(codes.len() as u64, r, v).unwrap_or(0);
        Input {
            run,
            ends,
            r,
            v,
            weights: weights.to_vec(),
            buffer: coloured(needed),
        }
    }

    /// Builds into the buffer.
    pub fn build(&mut self) -> Result<Built, Refusal> {
        let list = CodeList {
            run: &self.run,
            ends: &self.ends,
        };
        build(&list, self.r, self.v, &self.weights, &mut self.buffer)
    }
}

/// Bytes that are neither all zero nor all alike, so that a change among them shows.
pub fn coloured(length: usize) -> Vec<u8> {
    (0..length).map(|i| (i % 251) as u8 ^ 0xA5).collect()
}

/// The weights with p(j,j) = 1 for every part j and 0 elsewhere; for r = 2 those of case 1.
pub fn diagonal(r: usize) -> Vec<u16> {
    let mut weights = vec![0; 32 * r];
    for j in 0..r {
        weights[32 * j + j] = 1;
    }
    weights
}

/// The file that a list builds.
pub fn directory(codes: &[&[u8]], r: u64, v: u64, weights: &[u16]) -> Vec<u8> {
    let mut input = Input::new(codes, r, v, weights);
    let answer = input.build();
    assert!(answer.is_ok(), "the list should build: {answer:?}");
    input.buffer
}

/// The answer of a build with so many codes waiting at once at most, to compare with.
pub fn built(most_waiting: usize) -> Result<Built, Refusal> {
    Ok(Built { most_waiting })
}

/// A refusal, to compare with.
pub fn refusal(number: u8, place: usize) -> Refusal {
    Refusal { number, place }
}

/// Where the records of case 1's file stand, by hand: HD has 7 bytes, WT 2 + 128, GV 2 + 2,
/// RK 2 + 2, and each KY 35, so that the four of them end at 285.
pub const WT: usize = 7;
pub const GV: usize = 137;
pub const RK: usize = 141;
pub const KY: usize = 145;
pub const KY_BYTES: usize = 35;

/// The codes of case 1, in list order.
pub const CASE_1: [&[u8]; 4] = [b"BA", b"BB", b"DA", b"BC"];

pub fn case_1() -> Input {
    Input::new(&CASE_1, 2, 4, &diagonal(2))
}

pub fn case_1_file() -> Vec<u8> {
    directory(&CASE_1, 2, 4, &diagonal(2))
}

/// The 1,024 codes of two bytes (0,0), (0,1), .. (3,255), and after them as many more as wanted.
pub fn many_codes(count: usize) -> Vec<Vec<u8>> {
    (0..count)
        .map(|k| vec![(k / 256) as u8, (k % 256) as u8])
        .collect()
}

pub fn lent(codes: &[Vec<u8>]) -> Vec<&[u8]> {
    codes.iter().map(|code| &code[..]).collect()
}

/// Weights with p(0,0) = 256 and p(0,1) = 1: code k of `many_codes` has vertex k in part 0, and
/// all codes share the first vertex of each other part.
pub fn star_weights(r: usize) -> Vec<u16> {
    let mut weights = vec![0; 32 * r];
    weights[0] = 256;
    weights[1] = 1;
    weights
}

/// Checks that a build is refused and that no byte of its buffer changes.
pub fn assert_refused(mut input: Input, expected: Refusal) {
    let before = input.buffer.clone();
    assert_eq!(input.build(), Err(expected));
    assert_eq!(input.buffer, before, "a refused build changes no byte");
}

/// Checks what opening gives after a change to case 1's file.
pub fn assert_opens_to(change: impl Fn(&mut Vec<u8>), expected: Result<Header, Refusal>) {
    let mut file = case_1_file();
    change(&mut file);
    assert_eq!(open(&file), expected);
}
