//! Two checksums by which the trial compares a whole buffer.

/// The largest prime below 2^32, so that a sum times a factor is far below 2^64.
const PRIME: u64 = 4_294_967_291;
const FACTORS: [u64; 2] = [257, 65_537];

/// Starts at 0, and for each byte multiplies by the factor and adds the byte and 1, mod the prime.
/// Before the remainder is taken this is a numeral with digits 1 to 256, so that no two buffers
/// have the same one. Where one byte differs, so does each checksum.
pub fn checksums(bytes: &[u8]) -> [u64; 2] {
    FACTORS.map(|factor| {
        bytes
            .iter()
            .fold(0, |sum, &byte| (sum * factor + u64::from(byte) + 1) % PRIME)
    })
}
