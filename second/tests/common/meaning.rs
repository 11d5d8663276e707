//! What a call of the sign means on any bytes, said once more and otherwise: a row for each check in document 02's
//! order, the first that applies, and the bytes of the lists as sums.

use super::signs::Sign;
use second::sign::{Asked, Report, Reported};
use second::{lookup, Found, Refusal};

/// The number that four bytes of a list stand for, the low byte first.
fn number(list: &[u8], line: usize) -> i64 {
    let byte = |k: usize| i64::from(list[4 * line + k]);
    byte(0) + 256 * (byte(1) + 256 * (byte(2) + 256 * byte(3)))
}

/// The last level and time of a line, if it was heard. From 2^31 on a level stands for one below zero.
fn last(sign: &Sign, line: usize) -> Option<(i64, i64)> {
    let stored = number(&sign.levels, line);
    let level = if stored >= 1 << 31 {
        stored - (1 << 32)
    } else {
        stored
    };
    (-20_000..=20_000)
        .contains(&level)
        .then(|| (level, number(&sign.times, line)))
}

/// Whether a list has another number of places than the file has lines, where its header is right: it calls for n in
/// the bytes 2 and 3.
fn wrong_lists(sign: &Sign) -> bool {
    let places = match sign.file[..] {
        [_, _, low, high, ..] => usize::from(low) + 256 * usize::from(high),
        _ => 0,
    };
    sign.levels.len() != 4 * places || sign.times.len() != 4 * places
}

/// The first row that applies.
fn first<T: Copy>(rows: &[(bool, T)]) -> Option<T> {
    rows.iter().find(|(applies, _)| *applies).map(|row| row.1)
}

fn refused<T>(number: u8) -> Result<T, Refusal> {
    Err(Refusal { number, place: 0 })
}

/// The line that is found, none where nothing is, and lookup's refusal.
fn line(sign: &Sign, code: &[u8]) -> Result<Option<usize>, Refusal> {
    match lookup(&sign.file, code) {
        Found::At(line) => Ok(Some(line)),
        Found::Unknown => Ok(None),
        Found::Refused(refusal) => Err(refusal),
    }
}

/// What a report is answered with.
pub fn of_a_report(sign: &Sign, code: &[u8], report: Report) -> Result<Reported, Refusal> {
    let line = line(sign, code)?;
    let wrong_lists = wrong_lists(sign);
    let heard = line
        .filter(|_| !wrong_lists)
        .and_then(|line| last(sign, line));
    let rows = [
        (wrong_lists, refused(23)),
        (line.is_none(), Ok(Reported::Unknown)),
        (report.level.abs_diff(0) > 20_000, refused(17)),
        (
            heard.is_some_and(|(_, time)| i64::from(report.time) < time),
            refused(18),
        ),
    ];
    first(&rows).unwrap_or(Ok(Reported::Accepted(line.unwrap_or(0))))
}

/// What a question is answered with.
pub fn of_a_question(sign: &Sign, code: &[u8], now: u32, limit: u32) -> Result<Asked, Refusal> {
    let line = line(sign, code)?;
    let wrong_lists = wrong_lists(sign);
    let heard = line
        .filter(|_| !wrong_lists)
        .and_then(|line| last(sign, line));
    let (level, time) = heard.unwrap_or((0, 0));
    let (level, age) = (level as i32, i64::from(now) - time);
    let rows = [
        (limit == 0 || limit > 86_400, refused(22)),
        (wrong_lists, refused(23)),
        (line.is_none(), Ok(Asked::Unknown)),
        (heard.is_none(), Ok(Asked::Never)),
        (age < 0, refused(19)),
        (age <= i64::from(limit), Ok(Asked::Fresh { level })),
    ];
    let stale = Asked::Stale {
        level,
        age: age as u32,
    };
    first(&rows).unwrap_or(Ok(stale))
}

/// The lists after a report: those before it with the report in the four bytes of its line, where it is accepted.
pub fn lists_after(sign: &Sign, answer: Result<Reported, Refusal>, report: Report) -> Sign {
    let mut after = sign.clone();
    if let Ok(Reported::Accepted(line)) = answer {
        let level = i64::from(report.level).rem_euclid(1 << 32);
        for k in 0..4 {
            let digit = 1 << (8 * k);
            after.levels[4 * line + k] = (level / digit % 256) as u8;
            after.times[4 * line + k] = (i64::from(report.time) / digit % 256) as u8;
        }
    }
    after
}
