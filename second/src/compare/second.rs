//! The second program's answers in the form that C has.

use super::calls::{
    Calls, DsAnswer, DsAsked, DsCounted, DsFound, DsOpened, DsPart, DsReported, ACCEPTED, AT,
    FRESH, NEVER, REFUSED, STALE, UNKNOWN,
};
use crate::header::Header;
use crate::sign::{ask, report, Asked, Report, Reported};
use crate::{build, length, lookup, open, show, Built, CodeList, Found, Part, Refusal};

/// The second program.
pub struct Second;

impl Calls for Second {
    /// Outside the sizes C gets 0.
    fn length(&self, n: usize, r: usize, v: usize) -> usize {
        length(n as u64, r as u64, v as u64).unwrap_or(0)
    }

    fn build(
        &self,
        list: &CodeList,
        r: usize,
        v: usize,
        weights: &[u16],
        buffer: &mut [u8],
    ) -> DsAnswer {
        match build(list, r as u64, v as u64, weights, buffer) {
            Ok(_) => DsAnswer::default(),
            Err(Refusal { number, place }) => DsAnswer {
                number: u32::from(number),
                place,
            },
        }
    }

    fn build_counted(
        &self,
        list: &CodeList,
        r: usize,
        v: usize,
        weights: &[u16],
        buffer: &mut [u8],
    ) -> DsCounted {
        match build(list, r as u64, v as u64, weights, buffer) {
            Ok(Built { most_waiting }) => DsCounted {
                most_waiting,
                ..DsCounted::default()
            },
            Err(Refusal { number, place }) => DsCounted {
                number: u32::from(number),
                place,
                ..DsCounted::default()
            },
        }
    }

    fn open(&self, file: &[u8]) -> DsOpened {
        match open(file) {
            Ok(Header { n, r, v }) => DsOpened {
                n,
                r,
                v,
                ..DsOpened::default()
            },
            Err(Refusal { number, place }) => DsOpened {
                number: u32::from(number),
                place,
                ..DsOpened::default()
            },
        }
    }

    fn lookup(&self, file: &[u8], code: &[u8]) -> DsFound {
        match lookup(file, code) {
            Found::At(line) => DsFound {
                kind: AT,
                line,
                ..DsFound::default()
            },
            Found::Unknown => DsFound {
                kind: UNKNOWN,
                ..DsFound::default()
            },
            Found::Refused(Refusal { number, place }) => DsFound {
                kind: REFUSED,
                number: u32::from(number),
                place,
                line: 0,
            },
        }
    }

    fn show(&self, file: &[u8], line: usize) -> DsPart {
        let Part { start, length } = show(file, line as u64);
        DsPart { start, length }
    }

    fn report(
        &self,
        file: &[u8],
        code: &[u8],
        brought: Report,
        levels: &mut [u8],
        times: &mut [u8],
    ) -> DsReported {
        let answer = DsReported::default();
        match report(file, code, brought, levels, times) {
            Ok(Reported::Accepted(line)) => DsReported {
                kind: ACCEPTED,
                line,
                ..answer
            },
            Ok(Reported::Unknown) => DsReported {
                kind: UNKNOWN,
                ..answer
            },
            Err(Refusal { number, place }) => DsReported {
                kind: REFUSED,
                number: u32::from(number),
                place,
                ..answer
            },
        }
    }

    fn ask(
        &self,
        file: &[u8],
        code: &[u8],
        now: u32,
        limit: u32,
        levels: &[u8],
        times: &[u8],
    ) -> DsAsked {
        let of_kind = |kind| DsAsked {
            kind,
            ..DsAsked::default()
        };
        match ask(file, code, now, limit, levels, times) {
            Ok(Asked::Never) => of_kind(NEVER),
            Ok(Asked::Fresh { level }) => DsAsked {
                level,
                ..of_kind(FRESH)
            },
            Ok(Asked::Stale { level, age }) => DsAsked {
                level,
                age,
                ..of_kind(STALE)
            },
            Ok(Asked::Unknown) => of_kind(UNKNOWN),
            Err(Refusal { number, place }) => DsAsked {
                number: u32::from(number),
                place,
                ..of_kind(REFUSED)
            },
        }
    }
}
