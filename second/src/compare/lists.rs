//! Random lists for a build: of any size, most of them small; with any weights; now and then wrong in one way or
//! several; in buffers that are too short, right and too long.

use crate::random::Random;
use crate::sizes::{ARITIES, KEY_BYTES, MOST_CODES, MOST_VERTICES, WEIGHTS_OF_A_PART};
use crate::vectors::building::lists::{codes, part_size_near_cyclic};
use crate::vectors::inputs::{diagonal, Input};

/// As one byte, two or four bytes some of these would be arities.
const WRONG_ARITIES: [u64; 8] = [0, 1, 4, 5, 258, 65_539, (1 << 32) + 2, u64::MAX];

/// Times an arity some of these would be small in 64 bits.
const WRONG_PART_SIZES: [u64; 7] = [
    0,
    65_540,
    (1 << 32) + 4,
    1 << 63,
    (1 << 63) + 4,
    6_148_914_691_236_517_206,
    u64::MAX,
];

/// An input of a build.
pub fn input(random: &mut Random) -> Input {
    let codes = codes(count(random), random);
    let r = random.one_of(&ARITIES);
    let v = part_size(codes.len() as u64, r, random);
    let mut input = Input::new(&codes, r, v, &weights(r as usize, random));
    input.room += room_to_spare(random);
    let faults = match random.below(12) {
        0 | 1 => 1,
        2 => 1 + random.below(3),
        _ => 0,
    };
    for _ in 0..faults {
        put_fault(&mut input, random);
    }
    input
}

/// How many codes: in most lists up to 12, now and then up to as many as there may be.
fn count(random: &mut Random) -> usize {
    match random.below(96) {
        0 => MOST_CODES,
        1 => random.index(MOST_CODES + 1),
        2..6 => random.index(301),
        6..20 => random.index(81),
        _ => random.index(13),
    }
}

/// The smallest parts, the largest, any, and mostly those that make some lists cyclic and others not.
fn part_size(n: u64, r: u64, random: &mut Random) -> u64 {
    let largest = MOST_VERTICES as u64 / r;
    match random.below(10) {
        0 => 1 + random.below(4),
        1 => largest,
        2 => 1 + random.below(largest),
        _ => part_size_near_cyclic(n, r, random),
    }
}

/// All 0, all the largest, one a part, and random ones up to different limits.
fn weights(r: usize, random: &mut Random) -> Vec<u16> {
    let count = WEIGHTS_OF_A_PART * r;
    match random.below(12) {
        0 => vec![0; count],
        1 => vec![u16::MAX; count],
        2 => diagonal(r),
        _ => {
            let limit = random.one_of(&[2, 10, 256, 65_536, 65_536]);
            (0..count).map(|_| random.below(limit) as u16).collect()
        }
    }
}

/// Bytes of a buffer after the file.
fn room_to_spare(random: &mut Random) -> usize {
    match random.below(4) {
        0 => 0,
        1 => 1 + random.index(3),
        2 => random.index(100),
        _ => random.index(5_000),
    }
}

/// Puts something wrong into an input, whatever is wrong with it already.
fn put_fault(input: &mut Input, random: &mut Random) {
    match random.below(8) {
        0 => input.r = random.one_of(&WRONG_ARITIES),
        1 => input.v = random.one_of(&WRONG_PART_SIZES),
        2 => {
            let counts = [0, 1, 32, 63, 64, 65, 95, 96, 97, 128];
            input.weights.resize(random.one_of(&counts), 1);
        }
        3 => add_too_many(input, random),
        4 => move_end(input, random),
        5 => {
            let length = input.run.len() + random.index(36);
            input.run.resize(length.saturating_sub(random.index(6)), 0);
        }
        6 => input.room = random.index(input.room + 1),
        _ => repeat(input, random),
    }
}

/// Codes of one byte until there are more than there may be.
fn add_too_many(input: &mut Input, random: &mut Random) {
    let count = MOST_CODES + 1 + random.index(20);
    while input.ends.len() < count {
        input.run.push(random.byte());
        input.ends.push(input.run.len() as u16);
    }
}

/// Moves an end a little or anywhere.
fn move_end(input: &mut Input, random: &mut Random) {
    if input.ends.is_empty() {
        return;
    }
    let place = random.index(input.ends.len());
    input.ends[place] = match random.below(5) {
        0 => random.below(65_536) as u16,
        1 => 0,
        _ => {
            let higher = input.ends[place].saturating_add(3);
            higher.saturating_sub(random.below(40) as u16)
        }
    };
}

/// Puts one of the codes behind the last, with room for it.
fn repeat(input: &mut Input, random: &mut Random) {
    let Ok(codes) = input.list().codes() else {
        return;
    };
    if codes.is_empty() {
        return;
    }
    let code = codes[random.index(codes.len())].to_vec();
    input.run.extend_from_slice(&code);
    input.ends.push(input.run.len() as u16);
    input.room += KEY_BYTES;
}
