//! Random lists at both arities: their files with every code, strangers and every line; the same
//! files damaged, cut and lengthened; and strangers' files, whose values are not those of a build.

use super::inputs::{built, changed, lead, strangers_file};
use super::script::Script;
use super::{read_all, HUGE_LINES};
use crate::header::{checked_header, Header};
use crate::random::Random;
use crate::sizes::{KEY_BYTES, LONGEST_CODE, WEIGHTS_OF_A_PART};
use crate::table::assigned;

/// The most codes of a list.
const MOST: usize = 30;
/// Copies of each file with one byte changed, and with another length.
const DAMAGED: usize = 12;
const OTHER_LENGTHS: usize = 3;
/// Every so many lists there is a stranger's file too.
const LISTS_TO_A_STRANGER: u64 = 2;

pub fn write(script: &mut Script, random: &mut Random, lists: u64) {
    for number in 0..lists {
        let (codes, file) = list(random);
        let Header { n, r, v } = checked_header(&file).expect("a file that was built");
        script.comment(&format!("list {number}: n = {n}, r = {r}, v = {v}"));
        around(script, random, &file, &codes);
        if number.is_multiple_of(LISTS_TO_A_STRANGER) {
            let (codes, file) = strangers_list(random);
            script.comment(&format!("a stranger's file of {} codes", codes.len()));
            around(script, random, &file, &codes);
        }
    }
}

/// A file as it is, damaged, and with other lengths.
fn around(script: &mut Script, random: &mut Random, file: &[u8], codes: &[Vec<u8>]) {
    let lent: Vec<&[u8]> = codes.iter().map(|code| &code[..]).collect();
    read_all(script, file, &lent);
    for code in strangers(&lent, random) {
        script.lookup(&code);
    }
    script.show(random.one_of(&HUGE_LINES));
    script.comment("with a byte changed");
    for _ in 0..DAMAGED {
        let damaged = changed(file, |file| damage(file, random));
        calls(script, random, &damaged, codes);
    }
    script.comment("with another length");
    for _ in 0..OTHER_LENGTHS {
        let length = match random.below(3) {
            0 => random.index(file.len()),
            1 => file.len() - 1 - random.index(KEY_BYTES),
            _ => file.len() + 1 + random.index(2 * KEY_BYTES),
        };
        let other = changed(file, |file| file.resize(length, 0));
        calls(script, random, &other, codes);
    }
}

/// Every call once on a file, with a code of the list and a stranger, and a line of the list.
fn calls(script: &mut Script, random: &mut Random, file: &[u8], codes: &[Vec<u8>]) {
    script.file(file);
    script.open();
    script.header();
    script.lookup(&codes[random.index(codes.len())]);
    script.lookup(&code(random));
    script.show(random.below(codes.len() as u64 + 1));
}

/// A list that builds. Codes, sizes and weights are tried until there is one.
pub fn list(random: &mut Random) -> (Vec<Vec<u8>>, Vec<u8>) {
    loop {
        let codes = different_codes(1 + random.index(MOST), random);
        let r = 2 + random.below(2);
        let v = 1 + codes.len() as u64 / r + random.below(MOST as u64);
        if let Some(file) = built(&codes, r, v, &weights(r as usize, random)) {
            return (codes, file);
        }
    }
}

fn weights(r: usize, random: &mut Random) -> Vec<u16> {
    let limit = random.one_of(&[8, 256, 65_536]);
    (0..WEIGHTS_OF_A_PART * r)
        .map(|_| random.below(limit) as u16)
        .collect()
}

/// A code of few letters or of any bytes, mostly short.
pub fn code(random: &mut Random) -> Vec<u8> {
    let longest = random.one_of(&[2, 4, 8, LONGEST_CODE]);
    let few_letters = random.below(3) == 0;
    (0..1 + random.index(longest))
        .map(|_| match few_letters {
            true => random.one_of(b"\0AB\xFF"),
            false => random.byte(),
        })
        .collect()
}

fn different_codes(count: usize, random: &mut Random) -> Vec<Vec<u8>> {
    let mut codes: Vec<Vec<u8>> = Vec::new();
    while codes.len() < count {
        let code = code(random);
        if !codes.contains(&code) {
            codes.push(code);
        }
    }
    codes
}

/// Codes that are near to one of these, and codes at random.
pub fn strangers(codes: &[&[u8]], random: &mut Random) -> Vec<Vec<u8>> {
    let listed = codes[random.index(codes.len())];
    let shorter = listed[..listed.len() - 1].to_vec();
    let longer = [listed, &[0][..]].concat();
    let place = random.index(listed.len());
    let other = changed(listed, |code| code[place] ^= 1);
    vec![
        shorter,
        longer,
        other,
        code(random),
        code(random),
        code(random),
    ]
}

/// Values at random, and for each line a code that leads to it: the file opens, though its graph
/// may be cyclic.
pub fn strangers_list(random: &mut Random) -> (Vec<Vec<u8>>, Vec<u8>) {
    const TRIES: usize = 4_000;
    loop {
        let r = 2 + random.index(2);
        let v = 1 + random.index(12);
        let weights = weights(r, random);
        let values: Vec<usize> = (0..r * v).map(|_| random.index(r + 1)).collect();
        let mut stored = vec![Vec::new(); assigned(&values, r)];
        for _ in 0..TRIES {
            let code = code(random);
            if let Some(line) = lead(&code, &weights, &values, r, v) {
                stored[line] = code;
            }
        }
        if !stored.is_empty() && stored.iter().all(|code| !code.is_empty()) {
            let lent: Vec<&[u8]> = stored.iter().map(|code| &code[..]).collect();
            let file = strangers_file(r, v, &weights, &values, &lent);
            return (stored, file);
        }
    }
}

/// Changes one byte, in any record alike.
pub fn damage(file: &mut [u8], random: &mut Random) {
    let place = place(file, random);
    file[place] = changed_byte(file[place], random);
}

/// One more, one bit changed, a small number, or any.
pub fn changed_byte(byte: u8, random: &mut Random) -> u8 {
    match random.below(4) {
        0 => byte.wrapping_add(1),
        1 => byte ^ 1 << random.below(8),
        2 => random.below(5) as u8,
        _ => random.byte(),
    }
}

/// A place in the header, among the weights of the first bytes of a code, the values, the rank
/// entries or the stored codes.
fn place(file: &[u8], random: &mut Random) -> usize {
    /// Bytes at the start of a KY record, with the shortest code; weights that most codes use.
    const KEY_START: usize = 4;
    const WEIGHT_BYTES: usize = 10;
    let header = checked_header(file).expect("a file before its damage");
    let record = header.key_record(random.index(header.n));
    let places = match random.below(7) {
        0 => 0..header.weights_record(),
        1 => header.weights_record()..header.weights_record() + WEIGHT_BYTES,
        2 | 3 => header.values_record()..header.rank_record(),
        4 => header.rank_record()..header.key_record(0),
        5 => record..record + KEY_START,
        _ => record..record + KEY_BYTES,
    };
    places.start + random.index(places.len())
}
