//! Document 01's peeling word by word, with everything written down: who joins the queue, who is removed, and
//! how many wait. Degrees are counted from nothing after each removal. It shares nothing with the program's
//! own peeling.

use std::collections::{BTreeMap, BTreeSet};

/// The vertices of each code, straight from document 01's formula.
pub fn named_vertices(codes: &[Vec<u8>], weights: &[u16], r: usize, v: usize) -> Vec<Vec<usize>> {
    let sum = |code: &[u8], j: usize| -> usize {
        let terms = code.iter().zip(&weights[32 * j..]);
        terms
            .map(|(&byte, &weight)| usize::from(byte) * usize::from(weight))
            .sum()
    };
    codes
        .iter()
        .map(|code| (0..r).map(|j| sum(code, j) % v + j * v).collect())
        .collect()
}

/// A whole peeling.
pub struct Peeling {
    /// The codes in the order in which they joined the queue, those from the start first.
    pub joined: Vec<usize>,
    /// The codes in the order in which they were removed.
    pub removed: Vec<usize>,
    /// How many waited after the start, after the first step, and so on.
    pub waiting: Vec<usize>,
}

impl Peeling {
    pub fn most_waiting(&self) -> usize {
        *self.waiting.iter().max().expect("the start is counted")
    }
}

/// The unremoved codes on each vertex.
fn codes_by_vertex(named: &[Vec<usize>], removed: &[usize]) -> BTreeMap<usize, Vec<usize>> {
    let removed: BTreeSet<&usize> = removed.iter().collect();
    let mut codes = BTreeMap::<usize, Vec<usize>>::new();
    for k in (0..named.len()).filter(|k| !removed.contains(k)) {
        for &vertex in &named[k] {
            codes.entry(vertex).or_default().push(k);
        }
    }
    codes
}

/// The unremoved codes that have at least one vertex of degree 1, in list order.
pub fn alone_on_a_vertex(named: &[Vec<usize>], removed: &[usize]) -> Vec<usize> {
    let codes = codes_by_vertex(named, removed);
    let alone: BTreeSet<usize> = codes
        .into_values()
        .filter(|codes| codes.len() == 1)
        .flatten()
        .collect();
    alone.into_iter().collect()
}

/// Peels the codes with these vertices.
pub fn peeling(named: &[Vec<usize>]) -> Peeling {
    let mut queue = alone_on_a_vertex(named, &[]);
    let mut joined = queue.clone();
    let mut removed = Vec::new();
    let mut waiting = vec![queue.len()];
    while !queue.is_empty() {
        let front = queue.remove(0);
        removed.push(front);
        let codes = codes_by_vertex(named, &removed);
        for vertex in &named[front] {
            let left = codes.get(vertex).map_or(&[][..], |codes| &codes[..]);
            if left.len() == 1 && !queue.contains(&left[0]) {
                queue.push(left[0]);
                joined.push(left[0]);
            }
        }
        waiting.push(queue.len());
    }
    Peeling {
        joined,
        removed,
        waiting,
    }
}
