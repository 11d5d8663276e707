//! Random calls of the sign: a trace from cleared lists, and single calls with lists of any bytes and lengths.

use super::call::{Call, Given, Lists};
use super::Comparison;
use crate::header::{checked_header, Header};
use crate::random::Random;
use crate::sign::{cleared, PLACE_BYTES};
use crate::sizes::MOST_CODES;
use crate::vectors::traces::Trace;

/// The calls of a trace, and the single calls on a file.
const TRACE: usize = 60;
const SINGLE_CALLS: usize = 3;

/// Calls one after the other, from cleared lists, each with the lists that the one before it left.
pub fn trace(
    comparison: &mut Comparison,
    random: &mut Random,
    file: &[u8],
    header: &Header,
    listed: &[Vec<u8>],
) -> Result<(), String> {
    let (levels, times) = cleared(header.n);
    let mut lists = [levels, times];
    let mut trace = Trace::new(listed, random);
    for _ in 0..TRACE {
        let call = &trace.next(random);
        let given = comparison.ask(&Call::Sign {
            file,
            call,
            lists: &lists,
        })?;
        if let Given::Reported(_, left) = given {
            lists = left;
        }
    }
    Ok(())
}

/// Calls each with lists of its own: with as many places as the file has lines, or else as this header has.
pub fn single_calls(
    comparison: &mut Comparison,
    random: &mut Random,
    file: &[u8],
    header: &Header,
    listed: &[Vec<u8>],
) -> Result<(), String> {
    let places = checked_header(file).unwrap_or(*header).n;
    for _ in 0..SINGLE_CALLS {
        let mut trace = Trace::new(listed, random);
        let lists = &any_lists(&trace, places, random);
        let call = &trace.next(random);
        comparison.ask(&Call::Sign { file, call, lists })?;
    }
    Ok(())
}

/// Lists with so many places, of the trace's reports or of any bytes; now and then of another length.
fn any_lists(trace: &Trace, places: usize, random: &mut Random) -> Lists {
    let mut lists = trace.lists(places, random);
    if random.below(4) == 0 {
        let list = random.index(2);
        lists[list]
            .iter_mut()
            .for_each(|byte| *byte = random.byte());
    }
    if random.below(6) == 0 {
        let list = random.index(2);
        let length = other_length(lists[list].len(), random);
        lists[list].resize(length, 0);
    }
    lists
}

/// A byte or a place more or less, or any length.
fn other_length(length: usize, random: &mut Random) -> usize {
    match random.below(5) {
        0 => length.saturating_sub(1),
        1 => length + 1,
        2 => length.saturating_sub(PLACE_BYTES),
        3 => length + PLACE_BYTES,
        _ => random.index(PLACE_BYTES * MOST_CODES),
    }
}
