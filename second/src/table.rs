//! Assignment and rank: the value of every vertex, the landing vertex of a code, its line, and
//! the rank entries. The value r means unassigned.

use crate::sizes::BLOCK;

/// The values of the m vertices, assigned from the end of the removal list to its start.
pub fn values(
    vertices_of: &[Vec<usize>],
    removal_list: &[usize],
    r: usize,
    m: usize,
) -> Vec<usize> {
    let mut values = vec![r; m];
    let mut visited = vec![false; m];
    for &k in removal_list.iter().rev() {
        let vertices = &vertices_of[k];
        let j0 = (0..r)
            .find(|&j| !visited[vertices[j]])
            .expect("a removed code has a vertex that no code removed after it names");
        let sum: usize = vertices
            .iter()
            .filter(|&&vertex| visited[vertex])
            .map(|&vertex| values[vertex])
            .sum();
        values[vertices[j0]] = minus_mod(j0, sum, r);
        for &vertex in vertices {
            visited[vertex] = true;
        }
    }
    values
}

/// (a - b) mod r, in 0 to r-1.
fn minus_mod(a: usize, b: usize, r: usize) -> usize {
    (a + r - b % r) % r
}

/// The landing vertex of a code with these vertices: its vertex number (sum of its values) mod r.
pub fn landing_vertex(vertices: &[usize], values: &[usize], r: usize) -> usize {
    let sum: usize = vertices.iter().map(|&vertex| values[vertex]).sum();
    vertices[sum % r]
}

/// The number of assigned vertices among these values.
pub fn assigned(values: &[usize], r: usize) -> usize {
    values.iter().filter(|&&value| value != r).count()
}

/// The line that belongs to a landing vertex: the number of assigned vertices below it.
pub fn line(landing_vertex: usize, values: &[usize], r: usize) -> usize {
    assigned(&values[..landing_vertex], r)
}

/// The rank entries: entry b is the number of assigned vertices below vertex 64·b.
pub fn rank_entries(values: &[usize], r: usize) -> Vec<usize> {
    (0..values.len().div_ceil(BLOCK))
        .map(|b| assigned(&values[..BLOCK * b], r))
        .collect()
}
