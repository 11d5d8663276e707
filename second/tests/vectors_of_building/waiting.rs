//! The most codes waiting at once: the lists that pin the number, worked out by hand, and every number by
//! document 01's peeling word by word.

use crate::common::peeling::{named_vertices, peeling};
use crate::{text, to_builds};
use second::text::bytes_of_hex;
use second::trial::each_answer;

/// The answer to the build of a section of these vectors.
fn answer(words: &str) -> &'static str {
    let answers = to_builds(&format!("most waiting: {words}"));
    assert_eq!(answers.len(), 1, "{words}");
    answers[0]
}

/// The letters D, A, B and C are 0, 1, 2 and 3 mod 4: the vertices are (0,4), (1,5), (2,6) and (3,7). A, C
/// and E are 0, 2 and 4 mod 5: (0,5,10), (2,7,12) and (4,9,14). All wait from the start. So do 1,024 codes
/// with vertex k of each part: the number is n, and no queue is fuller.
#[test]
fn no_vertex_is_shared() {
    assert_eq!(answer("no vertex is shared, r = 2"), "built 4");
    assert_eq!(answer("no vertex is shared, r = 3"), "built 3");
    assert_eq!(answer("all of 1,024 codes, r = 2"), "built 1024");
    assert_eq!(answer("all of 1,024 codes, r = 3"), "built 1024");
}

/// v = 4. The vertices are
///
/// | 0 BBC | 1 BAB | 2 ACC | 3 DAA | 4 DBB | 5 BCB | 6 ADA |
/// |---|---|---|---|---|---|---|
/// | 2 6 11 | 2 5 10 | 1 7 11 | 0 5 9 | 0 6 10 | 2 7 10 | 1 4 9 |
///
/// Vertex 4 alone is named once: 6 waits. 6 leaves 2 alone on vertex 1 and 3 on 9: 2 3 wait. 2 leaves 5 alone
/// on 7 and 0 on 11: 3 5 0. 3 leaves 4 alone on 0 and 1 on 5: 5 0 4 1. 5 leaves two codes on 2 and two on 10:
/// 0 4 1. 0 leaves 1 alone on 2 and 4 on 6, which wait: 4 1. 4 leaves 1 alone on 10: 1. So 1, 2, 3, 4, 3, 2,
/// 1 and 0 wait. Counted before the others join, 3 at most; with the code that is taken, 5.
#[test]
fn the_most_after_a_step() {
    let words = "one from the start, the most after three steps";
    assert_eq!(answer(words), "built 4");
}

/// v = 4. The vertices of DD, AD, AA, BA and BB are (0,4), (1,4), (1,5), (2,5) and (2,6). DD and BB wait,
/// alone on 0 and 6. DD leaves AD alone on 4, BB leaves BA on 2, AD leaves AA on 1; BA leaves AA on 5, which
/// waits. So 2, 2, 2, 2, 1 and 0 wait.
#[test]
fn a_chain_taken_from_both_ends() {
    assert_eq!(answer("a chain, taken from both ends"), "built 2");
}

/// v = 3; B, C and A are 0, 1 and 2 mod 3. The vertices are
///
/// | 0 BAB | 1 CCB | 2 CCC | 3 CBA | 4 ABC | 5 AAA | 6 AAC |
/// |---|---|---|---|---|---|---|
/// | 0 5 6 | 1 4 6 | 1 4 7 | 1 3 8 | 2 3 7 | 2 5 8 | 2 5 7 |
///
/// Vertex 0 alone is named once: 0 waits. 0 leaves 1 alone on 6, 1 leaves 2 on 4, 2 leaves 3 on 1. 3 leaves 4
/// alone on 3 and 5 on 8: 4 5 wait. 4 leaves 6 alone on 7: 5 6. 5 leaves 6 alone on 2 and on 5, and it waits.
/// So 1, 1, 1, 1, 2, 2, 1 and 0 wait, and the codes are removed in list order. Counted before the others
/// join, 1 at most.
#[test]
fn one_at_a_time() {
    let words = "one at a time for three steps, then two";
    assert_eq!(answer(words), "built 2");
}

/// What is lent to a build, as the vectors so far leave it.
#[derive(Default)]
struct Lent {
    run: Vec<u8>,
    ends: Vec<usize>,
    weights: Vec<u16>,
}

fn numbers<T: std::str::FromStr>(words: &[&str]) -> Vec<T> {
    let number = |word: &&str| word.parse().ok().expect("a number");
    words.iter().map(number).collect()
}

impl Lent {
    fn take(&mut self, words: &[&str]) {
        match words {
            ["R", bytes @ ..] => {
                self.run = bytes_of_hex(bytes.concat().as_bytes()).expect("hex digits");
            }
            ["Z", length] => self.run.resize(length.parse().expect("a length"), 0),
            ["E", ends @ ..] => self.ends = numbers(ends),
            ["W", weights @ ..] => self.weights = numbers(weights),
            _ => (),
        }
    }

    fn codes(&self) -> Vec<Vec<u8>> {
        let starts = [0].iter().chain(&self.ends);
        let parts = starts.zip(&self.ends);
        parts
            .map(|(&start, &end)| self.run[start..end].to_vec())
            .collect()
    }
}

/// What is built has the number of the peeling word by word; what is refused has its number and place, two
/// checksums and no number more.
#[test]
fn every_number() {
    let answers = each_answer(text().as_bytes()).expect("every line is a vector");
    let mut lent = Lent::default();
    let mut built = 0;
    for (line, answer) in text().lines().zip(&answers) {
        let words: Vec<&str> = line.split(' ').collect();
        lent.take(&words);
        let ["B", r, v, _] = words[..] else {
            continue;
        };
        let given: Vec<&str> = answer.trim_end().split(' ').collect();
        if let ["built", most, _, _] = given[..] {
            let sizes: Vec<usize> = numbers(&[r, v]);
            let named = named_vertices(&lent.codes(), &lent.weights, sizes[0], sizes[1]);
            assert_eq!(most, peeling(&named).most_waiting().to_string(), "{line}");
            built += 1;
        } else {
            assert!(matches!(given[..], ["refused", _, _, _, _]), "{answer}");
        }
    }
    assert!(built >= 200, "{built}");
}
