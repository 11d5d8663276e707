//! The sizes of document 01: what is allowed, and how many bytes each part of the file takes.

use crate::header::Header;

/// Bytes of the longest code.
pub const LONGEST_CODE: usize = 32;
/// The most codes a directory may hold.
pub const MOST_CODES: usize = 1_024;
/// The most vertices, m = r·v, a directory may have.
pub const MOST_VERTICES: usize = 4_096;
/// The arities that are allowed.
pub const ARITIES: [u64; 2] = [2, 3];
/// Weights of one part: one for each byte that a code can have.
pub const WEIGHTS_OF_A_PART: usize = LONGEST_CODE;
/// Vertices of a block: each block has one rank entry.
pub const BLOCK: usize = 64;
/// Bits of a stored value.
pub const VALUE_BITS: usize = 2;
/// Values stored in one byte.
pub const VALUES_OF_A_BYTE: usize = 4;
/// Bytes of a mark.
pub const MARK_BYTES: usize = 2;
/// Bytes of a stored weight or rank entry.
pub const NUMBER_BYTES: usize = 2;
/// Bytes of the HD record: the mark, n (2), r (1) and v (2).
pub const HEADER_BYTES: usize = 7;
/// Bytes of a KY record: the mark, the length (1) and room for the longest code.
pub const KEY_BYTES: usize = MARK_BYTES + 1 + LONGEST_CODE;

/// Whether r is an allowed arity.
pub fn arity_allowed(r: u64) -> bool {
    ARITIES.contains(&r)
}

/// Whether v is at least 1 and r·v at most 4,096. The product of any two u64 fits in a u128.
pub fn part_size_allowed(r: u64, v: u64) -> bool {
    v >= 1 && u128::from(r) * u128::from(v) <= MOST_VERTICES as u128
}

/// Whether n codes are allowed.
pub fn count_allowed(n: u64) -> bool {
    n <= MOST_CODES as u64
}

/// The length of the file for n, r and v, or nothing where they are outside the sizes.
pub fn length(n: u64, r: u64, v: u64) -> Option<usize> {
    Header::within_sizes(n, r, v).map(|header| header.length())
}
