//! The plain map of document 02 a), from code to last accepted report. It knows the codes and nothing of a file, of
//! vertices or of lists, so that the sign can be held to it.

use super::{Asked, Report, Reported, LEVELS, LIMITS};
use crate::answers::{
    refuse, Refusal, CODE_ASKED, EARLIER_NOW, EARLIER_TIME, LEVEL_REPORTED, LIMIT_ASKED,
};
use crate::codes::length_allowed;
use std::collections::BTreeMap;

/// The codes of a sign in the order of its lines, and the last accepted report of those that were heard.
pub struct PlainMap {
    codes: Vec<Vec<u8>>,
    last: BTreeMap<Vec<u8>, Report>,
}

impl PlainMap {
    /// Nothing is heard yet.
    pub fn new(codes_in_line_order: Vec<Vec<u8>>) -> PlainMap {
        PlainMap {
            codes: codes_in_line_order,
            last: BTreeMap::new(),
        }
    }

    /// Where a code stands among the codes; 16 where no code is so long or so short.
    fn line(&self, code: &[u8]) -> Result<Option<usize>, Refusal> {
        if !length_allowed(code) {
            return refuse(CODE_ASKED, 0);
        }
        Ok(self.codes.iter().position(|listed| listed == code))
    }

    pub fn report(&mut self, code: &[u8], report: Report) -> Result<Reported, Refusal> {
        let Some(line) = self.line(code)? else {
            return Ok(Reported::Unknown);
        };
        if !LEVELS.contains(&report.level) {
            return refuse(LEVEL_REPORTED, 0);
        }
        match self.last.get(code) {
            Some(last) if last.time > report.time => refuse(EARLIER_TIME, 0),
            _ => {
                self.last.insert(code.to_vec(), report);
                Ok(Reported::Accepted(line))
            }
        }
    }

    pub fn ask(&self, code: &[u8], now: u32, limit: u32) -> Result<Asked, Refusal> {
        let line = self.line(code)?;
        if !LIMITS.contains(&limit) {
            return refuse(LIMIT_ASKED, 0);
        }
        if line.is_none() {
            return Ok(Asked::Unknown);
        }
        let Some(&Report { level, time }) = self.last.get(code) else {
            return Ok(Asked::Never);
        };
        match now.checked_sub(time) {
            None => refuse(EARLIER_NOW, 0),
            Some(age) if age > limit => Ok(Asked::Stale { level, age }),
            Some(_) => Ok(Asked::Fresh { level }),
        }
    }
}
