//! The vectors of the sign: changes of the two lists, and calls with the lists that are held.

use super::words::{asked, reported};
use super::{bytes_up_to, number_up_to, put, Held, LONGEST_CODE_ASKED};
use crate::sign::{ask, cleared, report, Report, PLACE_BYTES};
use crate::text::decimal;
use crate::vectors::traces::SignCall;

/// The most places of a list, two more than there are lines at most, and its bytes.
const MOST_PLACES: usize = 1_026;
const LONGEST_LIST: usize = PLACE_BYTES * MOST_PLACES;

/// What a level below zero begins with.
const MINUS: &[u8] = b"-";

/// Changes the lists.
pub fn change(letter: &[u8], fields: &[&[u8]], held: &mut Held) -> Option<()> {
    let Held { levels, times, .. } = held;
    match (letter, fields) {
        (b"K", [places]) => (*levels, *times) = cleared(number_up_to(MOST_PLACES, places)?),
        (b"V", [length]) => levels.resize(number_up_to(LONGEST_LIST, length)?, 0),
        (b"U", [length]) => times.resize(number_up_to(LONGEST_LIST, length)?, 0),
        (b"X", [place, bytes]) => put(levels, place, bytes)?,
        (b"Y", [place, bytes]) => put(times, place, bytes)?,
        _ => return None,
    }
    Some(())
}

/// The words that answer a call of the sign.
pub fn answer(letter: &[u8], fields: &[&[u8]], held: &mut Held) -> Option<String> {
    let Held {
        file,
        levels,
        times,
        ..
    } = held;
    Some(match call(letter, fields)? {
        SignCall::Report(code, brought) => {
            let answer = report(file, &code, brought, levels, times);
            reported(answer, levels, times)
        }
        SignCall::Ask { code, now, limit } => asked(ask(file, &code, now, limit, levels, times)),
    })
}

/// The call that a vector stands for.
pub(crate) fn call(letter: &[u8], fields: &[&[u8]]) -> Option<SignCall> {
    let &[code, first, second] = fields else {
        return None;
    };
    let code = bytes_up_to(LONGEST_CODE_ASKED, code)?;
    match letter {
        b"A" => {
            let level = level(first)?;
            let time = number(second)?;
            Some(SignCall::Report(code, Report { level, time }))
        }
        b"Q" => {
            let now = number(first)?;
            let limit = number(second)?;
            Some(SignCall::Ask { code, now, limit })
        }
        _ => None,
    }
}

/// A number of 32 bits.
fn number(word: &[u8]) -> Option<u32> {
    u32::try_from(decimal(word)?).ok()
}

/// A level, perhaps behind a minus.
fn level(word: &[u8]) -> Option<i32> {
    let digits = word.strip_prefix(MINUS);
    let size = i64::try_from(decimal(digits.unwrap_or(word))?).ok()?;
    let level = if digits.is_some() { -size } else { size };
    i32::try_from(level).ok()
}
