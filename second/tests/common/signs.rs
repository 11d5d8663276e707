//! A file with the two lists that are lent with it, for the tests of the sign.

use super::case_1_file;
use second::sign::{ask, cleared, report, Asked, Report, Reported};
use second::Refusal;

#[derive(Clone, Debug, PartialEq, Eq)]
pub struct Sign {
    pub file: Vec<u8>,
    pub levels: Vec<u8>,
    pub times: Vec<u8>,
}

impl Sign {
    /// A file with cleared lists of so many places.
    pub fn cleared(file: Vec<u8>, places: usize) -> Sign {
        let (levels, times) = cleared(places);
        Sign {
            file,
            levels,
            times,
        }
    }

    /// Case 1's file with cleared lists of its 4 places. Its lines are DA, BA, BB, BC.
    pub fn of_case_1() -> Sign {
        Sign::cleared(case_1_file(), 4)
    }

    pub fn report(&mut self, code: &[u8], level: i32, time: u32) -> Result<Reported, Refusal> {
        let reported = Report { level, time };
        report(
            &self.file,
            code,
            reported,
            &mut self.levels,
            &mut self.times,
        )
    }

    pub fn ask(&self, code: &[u8], now: u32, limit: u32) -> Result<Asked, Refusal> {
        ask(&self.file, code, now, limit, &self.levels, &self.times)
    }

    /// Reports, and checks what is answered and that no byte of the lists changes.
    pub fn assert_kept(
        &mut self,
        code: &[u8],
        report: Report,
        expected: Result<Reported, Refusal>,
    ) {
        let before = self.clone();
        assert_eq!(self.report(code, report.level, report.time), expected);
        assert_eq!(*self, before, "the lists change");
    }

    /// Reports what has to be accepted at a line.
    pub fn accept(&mut self, code: &[u8], level: i32, time: u32, line: usize) {
        assert_eq!(self.report(code, level, time), Ok(Reported::Accepted(line)));
    }
}

pub fn fresh(level: i32) -> Result<Asked, Refusal> {
    Ok(Asked::Fresh { level })
}

pub fn stale(level: i32, age: u32) -> Result<Asked, Refusal> {
    Ok(Asked::Stale { level, age })
}
