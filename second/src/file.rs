//! The directory file: its records written one after the other, and read back from their places.
//! The reading functions want a file whose header has passed the first checks.

use crate::header::{Header, HEADER_MARK};
use crate::sizes::{LONGEST_CODE, MARK_BYTES, NUMBER_BYTES, VALUES_OF_A_BYTE, VALUE_BITS};

/// The marks of the records after the header, in file order.
pub const WEIGHTS_MARK: &[u8; MARK_BYTES] = b"WT";
pub const VALUES_MARK: &[u8; MARK_BYTES] = b"GV";
pub const RANK_MARK: &[u8; MARK_BYTES] = b"RK";
pub const KEY_MARK: &[u8; MARK_BYTES] = b"KY";

/// The lowest bits of a byte that hold one value.
const VALUE_MASK: u8 = (1 << VALUE_BITS) - 1;

/// The whole file: HD, WT, GV, RK, and a KY record for each line.
pub fn write(
    header: &Header,
    weights: &[u16],
    values: &[usize],
    rank_entries: &[usize],
    codes_in_line_order: &[&[u8]],
) -> Vec<u8> {
    let mut file = Vec::new();
    file.extend_from_slice(HEADER_MARK);
    push_number(&mut file, header.n);
    file.push(header.r as u8);
    push_number(&mut file, header.v);
    file.extend_from_slice(WEIGHTS_MARK);
    for &weight in weights {
        push_number(&mut file, usize::from(weight));
    }
    file.extend_from_slice(VALUES_MARK);
    for four in values.chunks(VALUES_OF_A_BYTE) {
        file.push(packed(four));
    }
    file.extend_from_slice(RANK_MARK);
    for &entry in rank_entries {
        push_number(&mut file, entry);
    }
    for code in codes_in_line_order {
        push_key(&mut file, code);
    }
    file
}

/// A number in two bytes, the low byte first.
fn push_number(file: &mut Vec<u8>, number: usize) {
    file.extend_from_slice(&(number as u16).to_le_bytes());
}

/// Up to four values in one byte, the first in the lowest bits; spare bits are zero.
fn packed(values: &[usize]) -> u8 {
    let mut byte = 0;
    for (place, &value) in values.iter().enumerate() {
        byte |= (value as u8) << (VALUE_BITS * place);
    }
    byte
}

/// A KY record: the mark, the length, the code, and zeros as filling up to 32 bytes.
fn push_key(file: &mut Vec<u8>, code: &[u8]) {
    file.extend_from_slice(KEY_MARK);
    file.push(code.len() as u8);
    file.extend_from_slice(code);
    file.extend(std::iter::repeat_n(0, LONGEST_CODE - code.len()));
}

/// The two bytes of a mark at an offset.
pub fn mark(file: &[u8], offset: usize) -> &[u8] {
    &file[offset..offset + MARK_BYTES]
}

/// The number in two bytes, low byte first, at an offset.
fn number(file: &[u8], offset: usize) -> u16 {
    u16::from_le_bytes([file[offset], file[offset + 1]])
}

/// The stored weights.
pub fn weights(file: &[u8], header: &Header) -> Vec<u16> {
    let start = header.weights_record() + MARK_BYTES;
    (0..header.weights())
        .map(|i| number(file, start + NUMBER_BYTES * i))
        .collect()
}

/// Everything the GV bytes hold, four to a byte: the m values, and after them the spare bits.
fn values_and_spare_bits(file: &[u8], header: &Header) -> Vec<usize> {
    let start = header.values_record() + MARK_BYTES;
    (0..header.value_bytes() * VALUES_OF_A_BYTE)
        .map(|i| {
            let byte = file[start + i / VALUES_OF_A_BYTE];
            let shift = VALUE_BITS * (i % VALUES_OF_A_BYTE);
            usize::from((byte >> shift) & VALUE_MASK)
        })
        .collect()
}

/// The stored values of the m vertices, as they are.
pub fn values(file: &[u8], header: &Header) -> Vec<usize> {
    values_and_spare_bits(file, header)[..header.vertices()].to_vec()
}

/// Whether a spare bit is set.
pub fn spare_bits_set(file: &[u8], header: &Header) -> bool {
    values_and_spare_bits(file, header)[header.vertices()..]
        .iter()
        .any(|&bits| bits != 0)
}

/// Rank entry b.
pub fn rank_entry(file: &[u8], header: &Header, b: usize) -> usize {
    let start = header.rank_record() + MARK_BYTES;
    usize::from(number(file, start + NUMBER_BYTES * b))
}

/// The length stored in the KY record of a line.
pub fn stored_length(file: &[u8], header: &Header, line: usize) -> usize {
    usize::from(file[header.key_record(line) + MARK_BYTES])
}

/// Where the code in the KY record of a line begins.
pub fn code_start(header: &Header, line: usize) -> usize {
    header.key_record(line) + MARK_BYTES + 1
}

/// The 32 bytes in the KY record of a line: the code and its filling.
pub fn code_and_filling<'a>(file: &'a [u8], header: &Header, line: usize) -> &'a [u8] {
    let start = code_start(header, line);
    &file[start..start + LONGEST_CODE]
}
