//! A program that answers as the second program does, but for what a test alters.

use second::compare::{
    Calls, DsAnswer, DsAsked, DsCounted, DsFound, DsOpened, DsPart, DsReported, Second,
};
use second::sign::Report;
use second::CodeList;

/// The second program with its answers altered.
#[derive(Clone, Copy)]
pub struct Altered {
    pub length: fn(&mut usize),
    pub build: fn(&mut DsAnswer, &mut [u8]),
    pub build_counted: fn(&mut DsCounted, &mut [u8]),
    pub open: fn(&mut DsOpened),
    pub lookup: fn(&mut DsFound),
    pub show: fn(&mut DsPart),
    pub report: fn(&mut DsReported, &mut [u8], &mut [u8]),
    pub ask: fn(&mut DsAsked),
}

pub const UNALTERED: Altered = Altered {
    length: |_| (),
    build: |_, _| (),
    build_counted: |_, _| (),
    open: |_| (),
    lookup: |_| (),
    show: |_| (),
    report: |_, _, _| (),
    ask: |_| (),
};

impl Calls for Altered {
    fn length(&self, n: usize, r: usize, v: usize) -> usize {
        let mut length = Second.length(n, r, v);
        (self.length)(&mut length);
        length
    }

    fn build(
        &self,
        list: &CodeList,
        r: usize,
        v: usize,
        weights: &[u16],
        buffer: &mut [u8],
    ) -> DsAnswer {
        let mut answer = Second.build(list, r, v, weights, buffer);
        (self.build)(&mut answer, buffer);
        answer
    }

    fn build_counted(
        &self,
        list: &CodeList,
        r: usize,
        v: usize,
        weights: &[u16],
        buffer: &mut [u8],
    ) -> DsCounted {
        let mut answer = Second.build_counted(list, r, v, weights, buffer);
        (self.build_counted)(&mut answer, buffer);
        answer
    }

    fn open(&self, file: &[u8]) -> DsOpened {
        let mut opened = Second.open(file);
        (self.open)(&mut opened);
        opened
    }

    fn lookup(&self, file: &[u8], code: &[u8]) -> DsFound {
        let mut found = Second.lookup(file, code);
        (self.lookup)(&mut found);
        found
    }

    fn show(&self, file: &[u8], line: usize) -> DsPart {
        let mut part = Second.show(file, line);
        (self.show)(&mut part);
        part
    }

    fn report(
        &self,
        file: &[u8],
        code: &[u8],
        report: Report,
        levels: &mut [u8],
        times: &mut [u8],
    ) -> DsReported {
        let mut reported = Second.report(file, code, report, levels, times);
        (self.report)(&mut reported, levels, times);
        reported
    }

    fn ask(
        &self,
        file: &[u8],
        code: &[u8],
        now: u32,
        limit: u32,
        levels: &[u8],
        times: &[u8],
    ) -> DsAsked {
        let mut asked = Second.ask(file, code, now, limit, levels, times);
        (self.ask)(&mut asked);
        asked
    }
}
