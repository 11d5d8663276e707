//! What becomes of a file: a byte of any record changed, two stored codes swapped, another length; and files of any
//! bytes behind a header.

use crate::header::{Header, HEADER_MARK};
use crate::random::Random;
use crate::sizes::{BLOCK, HEADER_BYTES, KEY_BYTES, MARK_BYTES, NUMBER_BYTES};
use crate::vectors::faults::{N, R, V};
use crate::vectors::inputs::{changed, key_places, length_place};
use crate::vectors::lists::changed_byte;
use std::ops::Range;

/// The parts of a file that can be hit.
const PARTS: u64 = 13;

/// Bytes of the weights that most codes use.
const WEIGHT_BYTES_USED: usize = 10;

/// How often each copy of a file is damaged; a copy that is not has another length.
const DAMAGES: [usize; 8] = [1, 1, 1, 1, 2, 2, 0, 0];

/// Copies of a file with this header that are damaged, or have another length.
pub fn copies(file: &[u8], header: &Header, random: &mut Random) -> Vec<Vec<u8>> {
    let mut copy = |damages| {
        changed(file, |file| match damages {
            0 => resize(file, random),
            _ => (0..damages).for_each(|_| damage(file, header, random)),
        })
    };
    DAMAGES.map(&mut copy).to_vec()
}

/// Hits one part of a file; now and then swaps two stored codes.
fn damage(file: &mut [u8], header: &Header, random: &mut Random) {
    if header.n > 1 && random.below(PARTS) == 0 {
        swap_codes(file, header, random);
        return;
    }
    let places = places(header, random);
    let place = places.start + random.index(places.len());
    file[place] = changed_byte(file[place], random);
}

/// The places of one part: a mark, a number of the header, or what a record holds. Where there are no codes, the
/// values are hit in their place.
fn places(header: &Header, random: &mut Random) -> Range<usize> {
    let weights = header.weights_record() + MARK_BYTES;
    let line = random.index(header.n.max(1));
    match random.below(PARTS) {
        0 => mark(0),
        1 => N..R,
        2 => R..V,
        3 => V..HEADER_BYTES,
        4 => mark(header.weights_record()),
        5 => weights..weights + WEIGHT_BYTES_USED,
        6 => mark(header.values_record()),
        7 => mark(header.rank_record()),
        8 => header.rank_record() + MARK_BYTES..header.key_record(0),
        9 if header.n > 0 => mark(header.key_record(line)),
        10 if header.n > 0 => length_place(header, line)..length_place(header, line) + 1,
        11 if header.n > 0 => key_places(header, line),
        _ => header.values_record() + MARK_BYTES..header.rank_record(),
    }
}

fn mark(record: usize) -> Range<usize> {
    record..record + MARK_BYTES
}

/// Swaps the stored codes of two lines.
fn swap_codes(file: &mut [u8], header: &Header, random: &mut Random) {
    let (one, other) = (random.index(header.n), random.index(header.n));
    let stored = file[key_places(header, one)].to_vec();
    file.copy_within(key_places(header, other), length_place(header, one));
    file[key_places(header, other)].copy_from_slice(&stored);
}

/// Another length: cut anywhere, cut or lengthened a little, or by a KY record.
fn resize(file: &mut Vec<u8>, random: &mut Random) {
    let length = match random.below(5) {
        0 => random.index(file.len()),
        1 => file.len() - 1 - random.index(KEY_BYTES),
        2 => file.len() - KEY_BYTES,
        3 => file.len() + KEY_BYTES,
        _ => file.len() + 1 + random.index(2 * KEY_BYTES),
    };
    file.resize(length, 0);
}

/// Any bytes behind a header that is right, as many as it calls for. Half of the rank entries are at most n.
pub fn any_bytes(random: &mut Random) -> (Header, Vec<u8>) {
    let (n, r, v) = (
        random.index(12),
        2 + random.index(2),
        1 + random.index(2 * BLOCK),
    );
    let header = Header { n, r, v };
    let mut file: Vec<u8> = (0..header.length()).map(|_| random.byte()).collect();
    file[mark(0)].copy_from_slice(HEADER_MARK);
    put_number(&mut file, N, n);
    file[R] = r as u8;
    put_number(&mut file, V, v);
    let entries = header.rank_record() + MARK_BYTES;
    for place in (entries..header.key_record(0)).step_by(NUMBER_BYTES) {
        if random.below(2) == 0 {
            put_number(&mut file, place, random.index(n + 1));
        }
    }
    (header, file)
}

fn put_number(file: &mut [u8], place: usize, number: usize) {
    file[place..place + NUMBER_BYTES].copy_from_slice(&(number as u16).to_le_bytes());
}
