//! Opening: every check of a file in document 01's order, each with the lowest place at fault.

use crate::answers::{refuse, Found, Refusal, ASTRAY, KEY, MARK, RANK, VALUE};
use crate::file::{self, KEY_MARK, RANK_MARK, VALUES_MARK, WEIGHTS_MARK};
use crate::header::{checked_header, Header};
use crate::looking::lookup;
use crate::sizes::{LONGEST_CODE, MARK_BYTES};
use crate::table;

/// Opens a file: its n, r and v, or the first refusal in the order 9 (under 7 bytes), 10 (HD),
/// 11, 9 (length), 10 (the other marks), 12, 13, 14, 15.
pub fn open(file: &[u8]) -> Result<Header, Refusal> {
    let header = checked_header(file)?;
    check_marks(file, &header)?;
    check_values(file, &header)?;
    check_rank(file, &header)?;
    check_stored_codes(file, &header)?;
    check_each_code_leads_to_its_line(file, &header)?;
    Ok(header)
}

/// Refusal 10: the marks after the first, in file order.
fn check_marks(file: &[u8], header: &Header) -> Result<(), Refusal> {
    let mut marks: Vec<(usize, &[u8; MARK_BYTES])> = vec![
        (header.weights_record(), WEIGHTS_MARK),
        (header.values_record(), VALUES_MARK),
        (header.rank_record(), RANK_MARK),
    ];
    for line in 0..header.n {
        marks.push((header.key_record(line), KEY_MARK));
    }
    for (offset, mark) in marks {
        if file::mark(file, offset) != mark {
            return refuse(MARK, offset);
        }
    }
    Ok(())
}

/// Refusal 12: a value over r, then spare bits.
fn check_values(file: &[u8], header: &Header) -> Result<(), Refusal> {
    for (vertex, &value) in file::values(file, header).iter().enumerate() {
        if value > header.r {
            return refuse(VALUE, vertex);
        }
    }
    if file::spare_bits_set(file, header) {
        return refuse(VALUE, header.vertices());
    }
    Ok(())
}

/// Refusal 13: a wrong rank entry, then a wrong number of assigned vertices in all.
fn check_rank(file: &[u8], header: &Header) -> Result<(), Refusal> {
    let values = file::values(file, header);
    let right_entries = table::rank_entries(&values, header.r);
    for (b, &right) in right_entries.iter().enumerate() {
        if file::rank_entry(file, header, b) != right {
            return refuse(RANK, b);
        }
    }
    if table::assigned(&values, header.r) != header.n {
        return refuse(RANK, header.rank_entries());
    }
    Ok(())
}

/// Refusal 14: a stored length of 0 or over 32, or filling that is not zero.
fn check_stored_codes(file: &[u8], header: &Header) -> Result<(), Refusal> {
    for line in 0..header.n {
        let length = file::stored_length(file, header, line);
        if length == 0 || length > LONGEST_CODE {
            return refuse(KEY, line);
        }
        let filling = &file::code_and_filling(file, header, line)[length..];
        if filling.iter().any(|&byte| byte != 0) {
            return refuse(KEY, line);
        }
    }
    Ok(())
}

/// Refusal 15: looking up the code stored at a line does not give that line.
fn check_each_code_leads_to_its_line(file: &[u8], header: &Header) -> Result<(), Refusal> {
    for line in 0..header.n {
        let length = file::stored_length(file, header, line);
        let code = &file::code_and_filling(file, header, line)[..length];
        if lookup(file, code) != Found::At(line) {
            return refuse(ASTRAY, line);
        }
    }
    Ok(())
}
