//! Peeling: degrees, the waiting queue, the removal list and the most codes waiting at once. Degrees are
//! counted afresh each time they are asked for.

use std::collections::VecDeque;

/// What peeling comes to.
pub struct Peeled {
    /// The codes in the order in which they are removed. Codes that are not on it are left over.
    pub removal_list: Vec<usize>,
    /// The most codes waiting at once, counted after the start and after each peeling step.
    pub most_waiting: usize,
}

/// The unremoved codes that name a vertex. Their number is the degree of the vertex.
fn codes_left_on(vertex: usize, vertices_of: &[Vec<usize>], removed: &[bool]) -> Vec<usize> {
    (0..vertices_of.len())
        .filter(|&k| !removed[k] && vertices_of[k].contains(&vertex))
        .collect()
}

/// Every code, in list order, that has at least one vertex of degree 1.
fn waiting_at_the_start(vertices_of: &[Vec<usize>], removed: &[bool]) -> VecDeque<usize> {
    (0..vertices_of.len())
        .filter(|&k| {
            vertices_of[k]
                .iter()
                .any(|&vertex| codes_left_on(vertex, vertices_of, removed).len() == 1)
        })
        .collect()
}

/// The codes left alone on a vertex of the code that was taken join the back of the queue, unless they are
/// already waiting.
fn join(waiting: &mut VecDeque<usize>, taken: usize, vertices_of: &[Vec<usize>], removed: &[bool]) {
    for &vertex in &vertices_of[taken] {
        if let [one_left] = codes_left_on(vertex, vertices_of, removed)[..] {
            if !waiting.contains(&one_left) {
                waiting.push_back(one_left);
            }
        }
    }
}

/// Peels the codes whose vertices are given.
pub fn peel(vertices_of: &[Vec<usize>]) -> Peeled {
    let mut removed = vec![false; vertices_of.len()];
    let mut waiting = waiting_at_the_start(vertices_of, &removed);
    let mut most_waiting = waiting.len();
    let mut removal_list = Vec::new();
    while let Some(front) = waiting.pop_front() {
        removed[front] = true;
        removal_list.push(front);
        join(&mut waiting, front, vertices_of, &removed);
        most_waiting = most_waiting.max(waiting.len());
    }
    Peeled {
        removal_list,
        most_waiting,
    }
}
