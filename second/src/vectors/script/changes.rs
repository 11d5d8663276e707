//! The lines that turn a file or a list into the one that is wanted.

use crate::sign::{cleared, PLACE_BYTES};
use crate::text::hex;

/// The letters of a length, and of bytes at a place.
type Letters = [char; 2];
const FILE: Letters = ['C', 'P'];
const LEVELS: Letters = ['V', 'X'];
const TIMES: Letters = ['U', 'Y'];

/// The most bytes that one line puts into the file or a list.
pub const MOST_OF_A_LINE: usize = 64;
/// Bytes that are right already are sent again where fewer than this stand between wrong ones:
/// that is shorter than another line.
const GAP: usize = 5;

/// The lines that turn a file into the one that is wanted: from what it is, or from nothing.
pub fn of_a_file(file: &[u8], wanted: &[u8]) -> String {
    let from_this = changes(FILE, file, wanted);
    let from_nothing = changes(FILE, file, &[]) + &changes(FILE, &[], wanted);
    shorter(from_this, from_nothing)
}

/// The lines that turn the levels and the times into those that are wanted: from what they are, or from cleared lists.
pub fn of_lists(lists: [&[u8]; 2], wanted: [&[u8]; 2]) -> String {
    let from = |[levels, times]: [&[u8]; 2]| {
        changes(LEVELS, levels, wanted[0]) + &changes(TIMES, times, wanted[1])
    };
    let places = wanted[0].len() / PLACE_BYTES;
    let (levels, times) = cleared(places);
    let from_cleared = format!("K {places}\n") + &from([&levels, &times]);
    shorter(from(lists), from_cleared)
}

fn shorter(one: String, other: String) -> String {
    if one.len() <= other.len() {
        one
    } else {
        other
    }
}

/// The length first, then the bytes.
fn changes([length, put]: Letters, bytes: &[u8], wanted: &[u8]) -> String {
    let mut text = String::new();
    let mut bytes = bytes.to_vec();
    if bytes.len() != wanted.len() {
        bytes.resize(wanted.len(), 0);
        text += &format!("{length} {}\n", wanted.len());
    }
    let wrong: Vec<usize> = (0..bytes.len())
        .filter(|&i| bytes[i] != wanted[i])
        .collect();
    let mut rest = &wrong[..];
    while let Some(&start) = rest.first() {
        let mut taken = 1;
        while taken < rest.len()
            && rest[taken] - rest[taken - 1] <= GAP
            && rest[taken] - start < MOST_OF_A_LINE
        {
            taken += 1;
        }
        let end = rest[taken - 1] + 1;
        text += &format!("{put} {start} {}\n", hex(&wanted[start..end]));
        rest = &rest[taken..];
    }
    text
}
