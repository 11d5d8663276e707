//! The code list: one run of bytes and a list of two-byte end positions, taken apart into codes.

use crate::answers::{refuse, Refusal, CODE_LIST, REPEATED};
use crate::sizes::LONGEST_CODE;

/// A code list as it is lent. Code k runs from the end of code k-1 (0 for the first) to its own
/// end; the number of codes is the number of ends.
#[derive(Clone, Copy, Debug)]
pub struct CodeList<'a> {
    pub run: &'a [u8],
    pub ends: &'a [u16],
}

impl<'a> CodeList<'a> {
    /// The number of codes.
    pub fn count(&self) -> usize {
        self.ends.len()
    }

    /// The codes of the list, or refusal 5 with the lowest code at fault; its place is n where
    /// only the last end misses the run's length.
    pub fn codes(&self) -> Result<Vec<&'a [u8]>, Refusal> {
        let mut codes = Vec::new();
        let mut start = 0;
        for (k, &end) in self.ends.iter().enumerate() {
            let end = usize::from(end);
            if end < start || end > self.run.len() {
                return refuse(CODE_LIST, k);
            }
            let code = &self.run[start..end];
            if !length_allowed(code) {
                return refuse(CODE_LIST, k);
            }
            codes.push(code);
            start = end;
        }
        if start != self.run.len() {
            return refuse(CODE_LIST, self.count());
        }
        Ok(codes)
    }
}

/// Whether a code has 1 to 32 bytes.
pub fn length_allowed(code: &[u8]) -> bool {
    !code.is_empty() && code.len() <= LONGEST_CODE
}

/// Refusal 7 with the lowest code that equals an earlier one, if there is one.
pub fn check_all_different(codes: &[&[u8]]) -> Result<(), Refusal> {
    for k in 0..codes.len() {
        if codes[..k].contains(&codes[k]) {
            return refuse(REPEATED, k);
        }
    }
    Ok(())
}
