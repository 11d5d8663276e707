//! Looking up a code, and showing the code of a line. Both take any bytes as the file, opened
//! before or not.

use crate::answers::{Found, Part, Refusal, CODE_ASKED, RANK};
use crate::codes::length_allowed;
use crate::file;
use crate::header::{checked_header, Header};
use crate::sizes::{BLOCK, LONGEST_CODE};
use crate::table::{assigned, landing_vertex};
use crate::vertices::vertices;

/// Looks a code up. After the first checks it works from the stored values as they are.
pub fn lookup(file: &[u8], code: &[u8]) -> Found {
    let header = match checked_header(file) {
        Ok(header) => header,
        Err(refusal) => return Found::Refused(refusal),
    };
    if !length_allowed(code) {
        return Found::Refused(Refusal {
            number: CODE_ASKED,
            place: 0,
        });
    }
    let weights = file::weights(file, &header);
    let values = file::values(file, &header);
    let vertices = vertices(code, &weights, header.r, header.v);
    let landing_vertex = landing_vertex(&vertices, &values, header.r);
    if values[landing_vertex] == header.r {
        return Found::Unknown;
    }
    let block = landing_vertex / BLOCK;
    let line = file::rank_entry(file, &header, block)
        + assigned(&values[BLOCK * block..landing_vertex], header.r);
    if line >= header.n {
        return Found::Refused(Refusal {
            number: RANK,
            place: block,
        });
    }
    if is_stored_at(file, &header, line, code) {
        Found::At(line)
    } else {
        Found::Unknown
    }
}

/// Whether the KY record of a line has this code's length and bytes.
fn is_stored_at(file: &[u8], header: &Header, line: usize, code: &[u8]) -> bool {
    file::stored_length(file, header, line) == code.len()
        && file::code_and_filling(file, header, line).starts_with(code)
}

/// The part of the file that is the code of a line; the empty part where there is none to show.
pub fn show(file: &[u8], line: u64) -> Part {
    let Ok(header) = checked_header(file) else {
        return Part::EMPTY;
    };
    if line >= header.n as u64 {
        return Part::EMPTY;
    }
    let line = line as usize;
    let length = file::stored_length(file, &header, line);
    if length == 0 || length > LONGEST_CODE {
        return Part::EMPTY;
    }
    Part {
        start: file::code_start(&header, line),
        length,
    }
}
