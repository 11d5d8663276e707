//! The proved library, as include/dronesickle.h declares it. This module alone has `unsafe`.
#![allow(unsafe_code)]

use crate::compare::{Calls, DsAnswer, DsAsked, DsCounted, DsFound, DsOpened, DsPart, DsReported};
use crate::sign::Report;
use crate::CodeList;

// The declarations are those of include/dronesickle.h, argument by argument and field by field; the structs have
// C's layout. `ds_length` takes numbers alone, so that no argument can be wrong: it is safe to call.
unsafe extern "C" {
    safe fn ds_length(n: usize, r: usize, v: usize) -> usize;

    fn ds_build(
        run: *const u8,
        run_len: usize,
        ends: *const u16,
        ends_len: usize,
        r: usize,
        v: usize,
        weights: *const u16,
        weights_len: usize,
        buffer: *mut u8,
        buffer_len: usize,
    ) -> DsAnswer;

    fn ds_build_counted(
        run: *const u8,
        run_len: usize,
        ends: *const u16,
        ends_len: usize,
        r: usize,
        v: usize,
        weights: *const u16,
        weights_len: usize,
        buffer: *mut u8,
        buffer_len: usize,
    ) -> DsCounted;

    fn ds_open(file: *const u8, file_len: usize) -> DsOpened;

    fn ds_lookup(file: *const u8, file_len: usize, code: *const u8, code_len: usize) -> DsFound;

    fn ds_show(file: *const u8, file_len: usize, line: usize) -> DsPart;

    fn ds_report(
        file: *const u8,
        file_len: usize,
        code: *const u8,
        code_len: usize,
        level: i32,
        time: u32,
        levels: *mut u8,
        levels_len: usize,
        times: *mut u8,
        times_len: usize,
    ) -> DsReported;

    fn ds_ask(
        file: *const u8,
        file_len: usize,
        code: *const u8,
        code_len: usize,
        now: u32,
        limit: u32,
        levels: *const u8,
        levels_len: usize,
        times: *const u8,
        times_len: usize,
    ) -> DsAsked;
}

/// A call that builds: run, ends, r, v, weights and buffer, each slice as a pointer and a length.
type Building<Answer> = unsafe extern "C" fn(
    *const u8,
    usize,
    *const u16,
    usize,
    usize,
    usize,
    *const u16,
    usize,
    *mut u8,
    usize,
) -> Answer;

/// Makes one of the two calls that build.
fn build_by<Answer>(
    call: Building<Answer>,
    list: &CodeList,
    r: usize,
    v: usize,
    weights: &[u16],
    buffer: &mut [u8],
) -> Answer {
    // SAFETY: each pointer and length are those of a slice, so that it is valid, aligned and not null. The
    // buffer is lent to this call alone, so that it overlaps none of the others.
    unsafe {
        call(
            list.run.as_ptr(),
            list.run.len(),
            list.ends.as_ptr(),
            list.ends.len(),
            r,
            v,
            weights.as_ptr(),
            weights.len(),
            buffer.as_mut_ptr(),
            buffer.len(),
        )
    }
}

/// The library that is linked.
pub struct Library;

impl Calls for Library {
    fn length(&self, n: usize, r: usize, v: usize) -> usize {
        ds_length(n, r, v)
    }

    fn build(
        &self,
        list: &CodeList,
        r: usize,
        v: usize,
        weights: &[u16],
        buffer: &mut [u8],
    ) -> DsAnswer {
        build_by(ds_build, list, r, v, weights, buffer)
    }

    fn build_counted(
        &self,
        list: &CodeList,
        r: usize,
        v: usize,
        weights: &[u16],
        buffer: &mut [u8],
    ) -> DsCounted {
        build_by(ds_build_counted, list, r, v, weights, buffer)
    }

    fn open(&self, file: &[u8]) -> DsOpened {
        // SAFETY: the pointer and the length are those of a slice, and the call only reads.
        unsafe { ds_open(file.as_ptr(), file.len()) }
    }

    fn lookup(&self, file: &[u8], code: &[u8]) -> DsFound {
        // SAFETY: the pointers and the lengths are those of two slices, and the call only reads.
        unsafe { ds_lookup(file.as_ptr(), file.len(), code.as_ptr(), code.len()) }
    }

    fn show(&self, file: &[u8], line: usize) -> DsPart {
        // SAFETY: the pointer and the length are those of a slice, and the call only reads.
        unsafe { ds_show(file.as_ptr(), file.len(), line) }
    }

    fn report(
        &self,
        file: &[u8],
        code: &[u8],
        report: Report,
        levels: &mut [u8],
        times: &mut [u8],
    ) -> DsReported {
        // SAFETY: each pointer and length are those of a slice. The lists are lent to this call alone, so that
        // neither overlaps another slice.
        unsafe {
            ds_report(
                file.as_ptr(),
                file.len(),
                code.as_ptr(),
                code.len(),
                report.level,
                report.time,
                levels.as_mut_ptr(),
                levels.len(),
                times.as_mut_ptr(),
                times.len(),
            )
        }
    }

    fn ask(
        &self,
        file: &[u8],
        code: &[u8],
        now: u32,
        limit: u32,
        levels: &[u8],
        times: &[u8],
    ) -> DsAsked {
        // SAFETY: the pointers and the lengths are those of four slices, and the call only reads.
        unsafe {
            ds_ask(
                file.as_ptr(),
                file.len(),
                code.as_ptr(),
                code.len(),
                now,
                limit,
                levels.as_ptr(),
                levels.len(),
                times.as_ptr(),
                times.len(),
            )
        }
    }
}
