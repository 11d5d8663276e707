//! The sign of document 02 a): reporting a level and asking for it, above the directory's lookup. The last level and
//! time of each line stand in two lent lists.

mod map;
mod places;

use crate::answers::{
    refuse, Found, Refusal, EARLIER_NOW, EARLIER_TIME, LEVEL_REPORTED, LIMIT_ASKED, LISTS_LENT,
};
use crate::header::checked_header;
use crate::looking::lookup;
use places::{last_report, put_report};
use std::ops::RangeInclusive;

pub use map::PlainMap;
pub use places::{cleared, PLACE_BYTES};

/// The levels that can be reported, in millimetres. A stored level outside them means that the line was never heard.
pub const LEVELS: RangeInclusive<i32> = -20_000..=20_000;

/// The limits that can be asked with, in seconds.
pub const LIMITS: RangeInclusive<u32> = 1..=86_400;

/// A report: a level in millimetres, and the time in seconds that goes with it.
#[derive(Clone, Copy, Debug, PartialEq, Eq)]
pub struct Report {
    pub level: i32,
    pub time: u32,
}

/// The answer to a report that is not refused: accepted at a line, or the code is unknown.
#[derive(Clone, Copy, Debug, PartialEq, Eq)]
pub enum Reported {
    Accepted(usize),
    Unknown,
}

/// The answer to a question that is not refused.
#[derive(Clone, Copy, Debug, PartialEq, Eq)]
pub enum Asked {
    Never,
    Fresh { level: i32 },
    Stale { level: i32, age: u32 },
    Unknown,
}

/// Reports a level. It looks for lookup's refusals (9, 10, 11, 9, 16, 13), 23, an unknown code, 17 and 18, in this
/// order; where one of them is found, no byte of the lists changes.
pub fn report(
    file: &[u8],
    code: &[u8],
    report: Report,
    levels: &mut [u8],
    times: &mut [u8],
) -> Result<Reported, Refusal> {
    let line = line_of(file, code)?;
    check_lists(file, levels, times)?;
    let Some(line) = line else {
        return Ok(Reported::Unknown);
    };
    if !LEVELS.contains(&report.level) {
        return refuse(LEVEL_REPORTED, 0);
    }
    let last = last_report(levels, times, line);
    if last.is_some_and(|last| report.time < last.time) {
        return refuse(EARLIER_TIME, 0);
    }
    put_report(levels, times, line, report);
    Ok(Reported::Accepted(line))
}

/// Asks for the level of a code. It looks for lookup's refusals, 22, 23, an unknown code and 19, in this order.
pub fn ask(
    file: &[u8],
    code: &[u8],
    now: u32,
    limit: u32,
    levels: &[u8],
    times: &[u8],
) -> Result<Asked, Refusal> {
    let line = line_of(file, code)?;
    check_limit(limit)?;
    check_lists(file, levels, times)?;
    match line {
        Some(line) => shown(last_report(levels, times, line), now, limit),
        None => Ok(Asked::Unknown),
    }
}

/// The line of a code, none where the code is unknown, or lookup's refusal.
fn line_of(file: &[u8], code: &[u8]) -> Result<Option<usize>, Refusal> {
    match lookup(file, code) {
        Found::At(line) => Ok(Some(line)),
        Found::Unknown => Ok(None),
        Found::Refused(refusal) => Err(refusal),
    }
}

/// Refusal 22: a limit that is not 1 to 86,400.
fn check_limit(limit: u32) -> Result<(), Refusal> {
    if !LIMITS.contains(&limit) {
        return refuse(LIMIT_ASKED, 0);
    }
    Ok(())
}

/// Refusal 23: a list that has not exactly one place for each of the file's n lines.
fn check_lists(file: &[u8], levels: &[u8], times: &[u8]) -> Result<(), Refusal> {
    let right = PLACE_BYTES * checked_header(file)?.n;
    if levels.len() != right || times.len() != right {
        return refuse(LISTS_LENT, 0);
    }
    Ok(())
}

/// What is asked for, by the last report, if there was one; 19 where now is before it.
fn shown(last: Option<Report>, now: u32, limit: u32) -> Result<Asked, Refusal> {
    let Some(Report { level, time }) = last else {
        return Ok(Asked::Never);
    };
    if now < time {
        return refuse(EARLIER_NOW, 0);
    }
    let age = now - time;
    Ok(if age <= limit {
        Asked::Fresh { level }
    } else {
        Asked::Stale { level, age }
    })
}
