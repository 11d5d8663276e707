//! The lister's text: every line with its code in hex, or the refusal of a file that does not open.

use crate::answers::Refusal;
use crate::looking::show;
use crate::opening::open;
use crate::text::hex;

/// The lister's exact text for a file.
pub fn list(file: &[u8]) -> Vec<u8> {
    let text = match open(file) {
        Ok(header) => (0..header.n)
            .map(|line| format!("{line} {}\n", hex(show(file, line as u64).of(file))))
            .collect(),
        Err(refusal) => format!("{}\n", refused(&refusal)),
    };
    text.into_bytes()
}

/// A refusal as the lister writes it, without the newline.
pub fn refused(refusal: &Refusal) -> String {
    format!("refused {} {}", refusal.number, refusal.place)
}
