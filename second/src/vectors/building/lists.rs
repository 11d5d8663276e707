//! Random lists at both arities, with parts about as large as makes half of the lists cyclic; now
//! and then with a fault.

use super::{built, Input};
use crate::random::Random;
use crate::sizes::{LONGEST_CODE, WEIGHTS_OF_A_PART};
use crate::vectors::lists::strangers;
use crate::vectors::read_all;
use crate::vectors::script::Script;

/// The most codes of a list, small and middle; a list in so many is of middle size.
const MOST_OF_SMALL: usize = 12;
const MOST_OF_MIDDLE: usize = 80;
const LISTS_TO_A_MIDDLE: u64 = 9;
/// A list in so many has a fault.
const LISTS_TO_A_FAULT: u64 = 8;
/// The most bytes of a buffer after the file.
const MOST_TO_SPARE: usize = 40;

/// What strangers are near to where no code is listed.
const NONE: &[&[u8]] = &[b"BA"];

pub fn write(script: &mut Script, random: &mut Random, lists: u64) {
    for number in 0..lists {
        let mut input = list(random);
        if random.below(LISTS_TO_A_FAULT) == 0 {
            put_fault(&mut input, random);
        }
        let Input { ends, r, v, .. } = &input;
        let n = ends.len();
        script.comment(&format!("list {number}: n = {n}, r = {r}, v = {v}"));
        script.colour(input.room, random.byte());
        if script.build(&input).is_ok() {
            let (file, codes) = built(script, &input);
            read_all(script, &file, &codes);
            let listed = if codes.is_empty() { NONE } else { &codes };
            for stranger in strangers(listed, random) {
                script.lookup(&stranger);
            }
            script.list();
        }
    }
}

/// A list with room for its file.
fn list(random: &mut Random) -> Input {
    let most = match random.below(LISTS_TO_A_MIDDLE) {
        0 => MOST_OF_MIDDLE,
        _ => MOST_OF_SMALL,
    };
    let codes = codes(random.index(most + 1), random);
    let r = 2 + random.below(2);
    let v = part_size_near_cyclic(codes.len() as u64, r, random);
    let mut input = Input::new(&codes, r, v, &weights(r as usize, random));
    input.room += random.index(MOST_TO_SPARE);
    input
}

/// Parts between those that are too small for most lists of n codes and those that are large
/// enough for most: in hundredths of n.
pub fn part_size_near_cyclic(n: u64, r: u64, random: &mut Random) -> u64 {
    let (least, most) = match r {
        2 => (60, 190),
        _ => (28, 90),
    };
    1 + n * (least + random.below(most - least)) / 100
}

fn weights(r: usize, random: &mut Random) -> Vec<u16> {
    let limit = random.one_of(&[10, 256, 65_536]);
    (0..WEIGHTS_OF_A_PART * r)
        .map(|_| random.below(limit) as u16)
        .collect()
}

/// Different codes, many with the same beginning.
pub fn codes(count: usize, random: &mut Random) -> Vec<Vec<u8>> {
    let stems: Vec<Vec<u8>> = (0..3).map(|_| bytes(random.index(6), random)).collect();
    let mut codes: Vec<Vec<u8>> = Vec::new();
    while codes.len() < count {
        let mut code = stems[random.index(stems.len())].clone();
        let longest = random.one_of(&[2, 3, 4, LONGEST_CODE - code.len()]);
        code.extend(bytes(1 + random.index(longest), random));
        if random.below(8) == 0 {
            code.resize(LONGEST_CODE.min(code.len() + 1 + random.index(3)), 0);
        }
        if !codes.contains(&code) {
            codes.push(code);
        }
    }
    codes
}

fn bytes(count: usize, random: &mut Random) -> Vec<u8> {
    (0..count).map(|_| random.byte()).collect()
}

/// A fault of the code list, a short buffer or a repeated code.
fn put_fault(input: &mut Input, random: &mut Random) {
    let n = input.ends.len();
    match random.below(3) {
        0 if n > 0 => {
            let place = random.index(n);
            let end = usize::from(input.ends[place]) + 3;
            input.ends[place] = end.saturating_sub(random.index(7)) as u16;
        }
        1 if n > 0 => repeat(input, random),
        _ => {
            let needed = input.needed().expect("sizes that are allowed");
            input.room = needed - 1 - random.index(MOST_TO_SPARE);
        }
    }
}

/// Puts one of the codes behind the last.
fn repeat(input: &mut Input, random: &mut Random) {
    let codes = input.list().codes().expect("a list that is allowed");
    let code = codes[random.index(codes.len())].to_vec();
    input.run.extend_from_slice(&code);
    input.ends.push(input.run.len() as u16);
    input.room += crate::sizes::KEY_BYTES;
}
