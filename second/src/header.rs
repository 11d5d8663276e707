//! The HD record: n, r and v, where the other records stand because of them, and the four checks
//! that opening, looking up and showing all make first.

use crate::answers::{refuse, Refusal, HEADER_NUMBERS, LENGTH, MARK};
use crate::sizes::{
    arity_allowed, count_allowed, part_size_allowed, BLOCK, HEADER_BYTES, KEY_BYTES, MARK_BYTES,
    NUMBER_BYTES, VALUES_OF_A_BYTE, WEIGHTS_OF_A_PART,
};

/// The mark of the HD record.
pub const HEADER_MARK: &[u8; MARK_BYTES] = b"HD";

/// The numbers of a directory: n codes, arity r and part size v, all within the sizes.
#[derive(Clone, Copy, Debug, PartialEq, Eq)]
pub struct Header {
    pub n: usize,
    pub r: usize,
    pub v: usize,
}

impl Header {
    /// The header of n, r and v, or nothing where they are outside the sizes.
    pub fn within_sizes(n: u64, r: u64, v: u64) -> Option<Header> {
        if count_allowed(n) && arity_allowed(r) && part_size_allowed(r, v) {
            Some(Header {
                n: n as usize,
                r: r as usize,
                v: v as usize,
            })
        } else {
            None
        }
    }

    /// The number of vertices, m = r·v.
    pub fn vertices(&self) -> usize {
        self.r * self.v
    }

    /// The number of weights, 32·r.
    pub fn weights(&self) -> usize {
        WEIGHTS_OF_A_PART * self.r
    }

    /// The bytes that the m values take, ceil(m/4).
    pub fn value_bytes(&self) -> usize {
        self.vertices().div_ceil(VALUES_OF_A_BYTE)
    }

    /// The number of rank entries, ceil(m/64).
    pub fn rank_entries(&self) -> usize {
        self.vertices().div_ceil(BLOCK)
    }

    /// Where the WT record begins.
    pub fn weights_record(&self) -> usize {
        HEADER_BYTES
    }

    /// Where the GV record begins.
    pub fn values_record(&self) -> usize {
        self.weights_record() + MARK_BYTES + NUMBER_BYTES * self.weights()
    }

    /// Where the RK record begins.
    pub fn rank_record(&self) -> usize {
        self.values_record() + MARK_BYTES + self.value_bytes()
    }

    /// Where the KY record of a line begins; for line n, where the file ends.
    pub fn key_record(&self, line: usize) -> usize {
        self.rank_record() + MARK_BYTES + NUMBER_BYTES * self.rank_entries() + KEY_BYTES * line
    }

    /// The length of the whole file.
    pub fn length(&self) -> usize {
        self.key_record(self.n)
    }
}

/// The checks that come first for every reader, in their order: under 7 bytes (9), the HD mark
/// (10), the header's numbers (11), the length (9).
pub fn checked_header(file: &[u8]) -> Result<Header, Refusal> {
    let &[first, second, n_low, n_high, r, v_low, v_high, ..] = file else {
        return refuse(LENGTH, 0);
    };
    if [first, second] != *HEADER_MARK {
        return refuse(MARK, 0);
    }
    let n = u64::from(u16::from_le_bytes([n_low, n_high]));
    let v = u64::from(u16::from_le_bytes([v_low, v_high]));
    let Some(header) = Header::within_sizes(n, u64::from(r), v) else {
        return refuse(HEADER_NUMBERS, 0);
    };
    if file.len() != header.length() {
        return refuse(LENGTH, 0);
    }
    Ok(header)
}
