//! From code to vertices: the weighted sum of a code's bytes for each part, and the vertex it gives.

use crate::sizes::WEIGHTS_OF_A_PART;

/// The sum of a code for part j: t[0]·p(j,0) + t[1]·p(j,1) + .., where p(j,i) is weight 32·j + i.
pub fn sum(code: &[u8], weights: &[u16], j: usize) -> u64 {
    let mut sum = 0;
    for (i, &byte) in code.iter().enumerate() {
        sum += u64::from(byte) * u64::from(weights[WEIGHTS_OF_A_PART * j + i]);
    }
    sum
}

/// The r vertices of a code: vertex j is the sum for part j mod v, plus j·v.
pub fn vertices(code: &[u8], weights: &[u16], r: usize, v: usize) -> Vec<usize> {
    (0..r)
        .map(|j| (sum(code, weights, j) % v as u64) as usize + j * v)
        .collect()
}
