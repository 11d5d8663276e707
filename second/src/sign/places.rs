//! The two lists: four bytes a place, one place a line, the low byte first; levels in two's complement. The functions
//! with a line want lists that have its place.

use super::{Report, LEVELS};
use std::ops::Range;

/// Bytes of a place.
pub const PLACE_BYTES: usize = 4;

/// What every place of a cleared list holds.
const CLEARED: Report = Report {
    level: 30_000,
    time: 0,
};

/// The cleared lists of levels and of times with so many places.
pub fn cleared(places: usize) -> (Vec<u8>, Vec<u8>) {
    (
        CLEARED.level.to_le_bytes().repeat(places),
        CLEARED.time.to_le_bytes().repeat(places),
    )
}

/// The last report of a line; none where the stored level is no level. Then the stored time means nothing.
pub fn last_report(levels: &[u8], times: &[u8], line: usize) -> Option<Report> {
    let level = i32::from_le_bytes(listed(levels, line));
    let time = u32::from_le_bytes(listed(times, line));
    LEVELS.contains(&level).then_some(Report { level, time })
}

/// Puts a report in the places of a line.
pub fn put_report(levels: &mut [u8], times: &mut [u8], line: usize, report: Report) {
    levels[place(line)].copy_from_slice(&report.level.to_le_bytes());
    times[place(line)].copy_from_slice(&report.time.to_le_bytes());
}

fn listed(list: &[u8], line: usize) -> [u8; PLACE_BYTES] {
    let mut bytes = [0; PLACE_BYTES];
    bytes.copy_from_slice(&list[place(line)]);
    bytes
}

fn place(line: usize) -> Range<usize> {
    PLACE_BYTES * line..PLACE_BYTES * (line + 1)
}
