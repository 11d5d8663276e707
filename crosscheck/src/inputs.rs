//! Random inputs: small lists of codes with everything else that a build takes, now and then at
//! fault, and files with a few bytes changed or cut.

use second::header::checked_header;
use second::length;
use second::random::Random;
use second::text::run_and_ends;

/// Everything a build is given; the buffer by its length.
pub struct Input {
    pub codes: Vec<Vec<u8>>,
    pub run: Vec<u8>,
    pub ends: Vec<u16>,
    pub r: u64,
    pub v: u64,
    pub weights: Vec<u16>,
    pub room: usize,
}

/// What every byte of the buffer is before a build.
pub const BLANK: u8 = 0xAA;

/// The bytes that codes are made of: few, so that codes meet.
const LETTERS: [u8; 6] = [0, 1, 65, 66, 67, 255];

/// The most bytes of a code, and the weights of a part.
pub const LONGEST: u64 = 32;

/// One code more than a directory may hold.
const TOO_MANY_CODES: usize = 1_025;

pub fn code(random: &mut Random, longest: u64) -> Vec<u8> {
    let length = random.below(longest + 1);
    (0..length).map(|_| random.one_of(&LETTERS)).collect()
}

/// List `number`, which the sizes allow; every third has a fault, each kind in turn.
pub fn input(number: u64, random: &mut Random) -> Input {
    let r = 2 + random.below(2);
    let largest_part = random.one_of(&[1, 4, 8, 8, 50]);
    let v = 1 + random.below(largest_part);
    let largest_weight = random.one_of(&[1, 7, 65_535]);
    let weights = (0..LONGEST * r)
        .map(|_| random.below(largest_weight + 1) as u16)
        .collect();
    let n = random.below(6);
    let longest = random.one_of(&[3, 3, 3, LONGEST]);
    let codes: Vec<Vec<u8>> = (0..n)
        .map(|_| [&code(random, longest - 1)[..], &[random.one_of(&LETTERS)]].concat())
        .collect();
    let mut input = lent(codes, r, v, weights);
    let needed = input.room;
    input.room += random.below(4) as usize;
    if number.is_multiple_of(3) {
        put_fault(number / 3 % FAULTS, &mut input, needed, random);
    }
    input
}

/// An input with room for the file and no more.
pub fn lent(codes: Vec<Vec<u8>>, r: u64, v: u64, weights: Vec<u16>) -> Input {
    let (run, ends) = run_and_ends(&codes);
    let room = length(codes.len() as u64, r, v).expect("these sizes are allowed");
    Input {
        codes,
        run,
        ends,
        r,
        v,
        weights,
        room,
    }
}

/// The kinds of fault that an input can have.
const FAULTS: u64 = 8;

fn put_fault(kind: u64, input: &mut Input, needed: usize, random: &mut Random) {
    let n = input.ends.len() as u64;
    match kind {
        0 => input.r = random.one_of(&[0, 1, 4, 5]),
        1 => input.v = random.one_of(&[0, 2_049, 5_000]),
        2 => input.weights.truncate(random.below(64) as usize),
        3 if n > 0 => input.ends[random.below(n) as usize] = random.below(9) as u16,
        4 => input.run.push(0),
        5 => input.ends = vec![0; TOO_MANY_CODES],
        6 if n > 0 => {
            input.run.extend_from_slice(&input.codes[0]);
            input.ends.push(input.run.len() as u16);
            input.room += KEY_BYTES;
        }
        _ => input.room = random.below(needed as u64) as usize,
    }
}

/// A copy with one or two bytes changed, where something is stored, and now and then cut; with the
/// text that makes it from the file of this name.
pub fn changed(file: &[u8], name: &str, random: &mut Random) -> (Vec<u8>, String) {
    let mut copy = file.to_vec();
    let mut text = name.to_string();
    for _ in 0..=random.below(2) {
        let at = place(&copy, random);
        let byte = match random.below(4) {
            0 => 0,
            1 => 1 + random.below(4) as u8,
            2 => copy[at] ^ (1 << random.below(8)),
            _ => random.below(256) as u8,
        };
        copy[at] = byte;
        text = format!("(set {text} {at} {byte})");
    }
    if random.below(15) == 0 {
        let length = random.below(copy.len() as u64) as usize;
        copy.truncate(length);
        text = format!("(take {length} {text})");
    }
    (copy, text)
}

/// The bytes at the start of a KY record that hold its mark, its length and the shortest code.
const KEY_START: usize = 4;
const KEY_BYTES: usize = 35;

/// A place in the header, at the first weights, among the values, the rank entries or the stored
/// codes; anywhere if the header is at fault by now.
fn place(file: &[u8], random: &mut Random) -> usize {
    let Ok(header) = checked_header(file) else {
        return random.below(file.len() as u64) as usize;
    };
    let (from, to) = match random.below(6) {
        0 => (0, header.weights_record()),
        1 => (header.weights_record(), header.weights_record() + 8),
        2 => (header.values_record(), header.rank_record()),
        3 => (header.rank_record(), header.key_record(0)),
        _ if header.n > 0 => {
            let record = header.key_record(random.below(header.n as u64) as usize);
            (record, record + random.one_of(&[KEY_START, KEY_BYTES]))
        }
        _ => (0, file.len()),
    };
    from + random.below((to - from) as u64) as usize
}
