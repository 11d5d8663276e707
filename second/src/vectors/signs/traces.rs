//! Random traces: over an opened file alone, over a file that does not open, and over what changes between the calls.

use super::begin;
use crate::header::checked_header;
use crate::opening::open;
use crate::random::Random;
use crate::sign::{cleared, PLACE_BYTES};
use crate::vectors::inputs::changed;
use crate::vectors::script::Script;
use crate::vectors::traces::{damaged, opened_file, SignCall, Trace};

/// The fewest calls of a trace.
const CALLS: usize = 220;

/// The most bytes that a list gets at once, and that it gets too many.
const MOST_JUNK: usize = 8;
const MOST_TOO_MANY: usize = PLACE_BYTES + 1;

pub fn write(script: &mut Script, random: &mut Random, traces: u64) {
    for number in 0..traces {
        let (codes, file) = opened_file(random);
        let n = codes.len();
        match number % 4 {
            0 | 1 => {
                script.comment(&format!("trace {number}: an opened file, n = {n}"));
                over_one_file(script, random, &file, &codes);
            }
            2 => {
                script.comment(&format!("trace {number}: an unopened file, n = {n}"));
                let unopened = unopened(&file, random);
                over_one_file(script, random, &unopened, &codes);
            }
            _ => {
                script.comment(&format!("trace {number}: what changes, n = {n}"));
                over_changes(script, random, &file, &codes);
            }
        }
    }
}

/// A damaged copy of a file that does not open and has as many lines.
fn unopened(file: &[u8], random: &mut Random) -> Vec<u8> {
    let lines = |file: &[u8]| checked_header(file).map(|header| header.n);
    loop {
        let copy = damaged(file, random);
        if open(&copy).is_err() && lines(&copy) == lines(file) {
            return copy;
        }
    }
}

/// Calls from cleared lists; now and then one with a list of another length between the others.
fn over_one_file(script: &mut Script, random: &mut Random, file: &[u8], codes: &[Vec<u8>]) {
    begin(script, file, codes.len());
    let mut trace = Trace::new(codes, random);
    for _ in 0..CALLS {
        script.sign_call(&trace.next(random));
        if random.below(40) == 0 {
            let call = trace.next(random);
            with_another_length(script, random, &call);
        }
    }
}

fn with_another_length(script: &mut Script, random: &mut Random, call: &SignCall) {
    let [levels, times] = script.lists_left();
    let length = random.one_of(&[levels.len() - 1, levels.len() + PLACE_BYTES]);
    let other = |list: &[u8]| changed(list, |list| list.resize(length, 0));
    match random.below(2) {
        0 => script.lists(&other(&levels), &times),
        _ => script.lists(&levels, &other(&times)),
    }
    script.sign_call(call);
    script.lists(&levels, &times);
}

fn over_changes(script: &mut Script, random: &mut Random, file: &[u8], codes: &[Vec<u8>]) {
    begin(script, file, codes.len());
    let mut trace = Trace::new(codes, random);
    for _ in 0..CALLS {
        change(script, random, file, codes.len());
        script.sign_call(&trace.next(random));
    }
}

/// Now and then damages a file that has so many lines or puts it back, puts any bytes into a list or gives it another
/// length, or clears both.
fn change(script: &mut Script, random: &mut Random, file: &[u8], lines: usize) {
    let [levels, times] = script.lists_left();
    let length = random.index(PLACE_BYTES * lines + MOST_TOO_MANY);
    let other_length = |list: &[u8]| changed(list, |list| list.resize(length, 0));
    match random.below(40) {
        0 | 1 => script.file(&damaged(file, random)),
        2 => script.file(&file[..random.index(file.len())]),
        3 | 4 => script.file(file),
        5 | 6 => script.lists(&with_junk(&levels, random), &times),
        7 => script.lists(&levels, &with_junk(&times, random)),
        8 => script.lists(&other_length(&levels), &times),
        9 => script.lists(&levels, &other_length(&times)),
        10 | 11 => {
            let (levels, times) = cleared(lines);
            script.lists(&levels, &times);
        }
        _ => (),
    }
}

/// A list with zeros or any bytes from a place on.
fn with_junk(list: &[u8], random: &mut Random) -> Vec<u8> {
    let start = random.index(list.len() + 1);
    let end = list.len().min(start + 1 + random.index(MOST_JUNK));
    let zeros = random.below(2) == 0;
    changed(list, |list| {
        for byte in &mut list[start..end] {
            *byte = if zeros { 0 } else { random.byte() };
        }
    })
}
