//! The calls of include/dronesickle.h, with their answers as C has them, field by field.

use crate::sign::Report;
use crate::CodeList;

/// The kinds of an answer: of a lookup the first three, of a report and a question those that are named so.
pub const AT: u32 = 0;
pub const UNKNOWN: u32 = 1;
pub const REFUSED: u32 = 2;
pub const ACCEPTED: u32 = 3;
pub const NEVER: u32 = 4;
pub const FRESH: u32 = 5;
pub const STALE: u32 = 6;

#[repr(C)]
#[derive(Clone, Copy, Debug, Default, PartialEq, Eq)]
pub struct DsAnswer {
    pub number: u32,
    pub place: usize,
}

#[repr(C)]
#[derive(Clone, Copy, Debug, Default, PartialEq, Eq)]
pub struct DsCounted {
    pub number: u32,
    pub place: usize,
    pub most_waiting: usize,
}

#[repr(C)]
#[derive(Clone, Copy, Debug, Default, PartialEq, Eq)]
pub struct DsOpened {
    pub number: u32,
    pub place: usize,
    pub n: usize,
    pub r: usize,
    pub v: usize,
}

#[repr(C)]
#[derive(Clone, Copy, Debug, Default, PartialEq, Eq)]
pub struct DsFound {
    pub kind: u32,
    pub number: u32,
    pub place: usize,
    pub line: usize,
}

#[repr(C)]
#[derive(Clone, Copy, Debug, Default, PartialEq, Eq)]
pub struct DsPart {
    pub start: usize,
    pub length: usize,
}

#[repr(C)]
#[derive(Clone, Copy, Debug, Default, PartialEq, Eq)]
pub struct DsReported {
    pub kind: u32,
    pub number: u32,
    pub place: usize,
    pub line: usize,
}

#[repr(C)]
#[derive(Clone, Copy, Debug, Default, PartialEq, Eq)]
pub struct DsAsked {
    pub kind: u32,
    pub number: u32,
    pub place: usize,
    pub level: i32,
    pub age: u32,
}

/// A program that answers the calls.
pub trait Calls {
    fn length(&self, n: usize, r: usize, v: usize) -> usize;

    fn build(
        &self,
        list: &CodeList,
        r: usize,
        v: usize,
        weights: &[u16],
        buffer: &mut [u8],
    ) -> DsAnswer;

    fn build_counted(
        &self,
        list: &CodeList,
        r: usize,
        v: usize,
        weights: &[u16],
        buffer: &mut [u8],
    ) -> DsCounted;

    fn open(&self, file: &[u8]) -> DsOpened;

    fn lookup(&self, file: &[u8], code: &[u8]) -> DsFound;

    fn show(&self, file: &[u8], line: usize) -> DsPart;

    fn report(
        &self,
        file: &[u8],
        code: &[u8],
        report: Report,
        levels: &mut [u8],
        times: &mut [u8],
    ) -> DsReported;

    fn ask(
        &self,
        file: &[u8],
        code: &[u8],
        now: u32,
        limit: u32,
        levels: &[u8],
        times: &[u8],
    ) -> DsAsked;
}
