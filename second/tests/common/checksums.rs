//! The rule of the checksums, typed once more.

/// A factor for each byte, the byte and 1, mod 2^32 - 5.
pub fn checksums(bytes: &[u8]) -> [u128; 2] {
    [257, 65_537].map(|factor| {
        bytes.iter().fold(0, |sum, &byte| {
            (sum * factor + u128::from(byte) + 1) % ((1 << 32) - 5)
        })
    })
}
