//! Document 02 b): no code waits twice in one build, the most codes waiting at once are at most n, and a
//! queue of 1,024 places is enough. The expected values come from document 01's peeling word by word, and
//! once more from counting the codes that are alone on a vertex, which needs no queue at all.

mod common;

use common::peeling::{alone_on_a_vertex, peeling, Peeling};
use second::graph::peel;
use second::random::Random;
use std::collections::{BTreeMap, BTreeSet};

/// Where the generator starts.
const SEED: u64 = 20_032;
/// How many small graphs are tried, and how many of each kind have to be among them.
const GRAPHS: usize = 4_000;
const FEWEST_OF_A_KIND: usize = 50;
/// The most codes of a small graph.
const MOST_OF_SMALL: usize = 14;
/// The most codes, and the most places that document 02 gives the queue.
const MOST_CODES: usize = 1_024;
const PLACES: usize = 1_024;

/// The vertices of n codes, one in each part.
fn random_graph(n: usize, r: usize, v: usize, random: &mut Random) -> Vec<Vec<usize>> {
    let mut vertices = || (0..r).map(|j| j * v + random.index(v)).collect();
    (0..n).map(|_| vertices()).collect()
}

/// A graph of at least so many codes, with parts from one vertex to somewhat more than there are codes.
fn small_graph(fewest: usize, r: usize, random: &mut Random) -> Vec<Vec<usize>> {
    let n = fewest + random.index(MOST_OF_SMALL - fewest + 1);
    let v = 1 + random.index(n + 2);
    random_graph(n, r, v, random)
}

/// Checks the program's peeling of a graph, and gives the whole peeling by document 01's words.
fn check(named: &[Vec<usize>], words: &str) -> Peeling {
    let whole = peeling(named);
    let joined_once: BTreeSet<&usize> = whole.joined.iter().collect();
    assert_eq!(joined_once.len(), whole.joined.len(), "twice: {words}");
    assert!(whole.joined.len() <= PLACES, "a place for each: {words}");
    for (steps, &waiting) in whole.waiting.iter().enumerate() {
        let alone = alone_on_a_vertex(named, &whole.removed[..steps]);
        assert_eq!(waiting, alone.len(), "after {steps} steps: {words}");
    }
    let most = whole.most_waiting();
    assert!(most <= named.len(), "{words}");
    let peeled = peel(named);
    assert_eq!(peeled.removal_list, whole.removed, "{words}");
    assert_eq!(peeled.most_waiting, most, "{words}");
    whole
}

/// Whether a peeling is of each of some kinds.
fn kinds(n: usize, whole: &Peeling) -> [(&'static str, bool); 5] {
    let all_removed = whole.removed.len() == n;
    let most = whole.most_waiting();
    [
        ("all are removed", all_removed),
        ("some are removed", !all_removed && most > 0),
        ("none ever waits", n > 0 && most == 0),
        ("all wait at once", all_removed && n > 1 && most == n),
        ("more wait later", all_removed && most > whole.waiting[0]),
    ]
}

#[test]
fn small_graphs() {
    let mut random = Random::new(SEED);
    let mut counts = BTreeMap::<&str, usize>::new();
    for number in 0..GRAPHS {
        let named = small_graph(0, 2 + number % 2, &mut random);
        let words = format!("graph {number} of seed {SEED}: {named:?}");
        let whole = check(&named, &words);
        for (kind, holds) in kinds(named.len(), &whole) {
            *counts.entry(kind).or_default() += usize::from(holds);
        }
    }
    let often = counts.values().all(|&count| count >= FEWEST_OF_A_KIND);
    assert!(often, "{counts:?}");
}

/// Arities and part sizes for 1,024 codes: too small, about large enough, and the largest.
const SIZES: [(usize, usize); 5] = [(2, 700), (2, 2_048), (3, 380), (3, 460), (3, 1_365)];

/// Where all 1,024 codes are removed, each has waited once, so that the places are just enough for all.
#[test]
fn the_most_codes() {
    let mut random = Random::new(SEED);
    let mut whole_lists = 0;
    for (r, v) in SIZES {
        let named = random_graph(MOST_CODES, r, v, &mut random);
        let words = format!("1,024 codes of seed {SEED}, r = {r}, v = {v}");
        let whole = check(&named, &words);
        whole_lists += usize::from(whole.joined.len() == MOST_CODES);
    }
    assert!((1..SIZES.len()).contains(&whole_lists), "{whole_lists}");
}

/// By hand: a code that is removed had a vertex to itself. At r = 2 it has one other, so that at most one
/// code joins, and after a step no more wait than before it.
#[test]
fn at_arity_2_the_most_wait_from_the_start() {
    let mut random = Random::new(SEED);
    for _ in 0..GRAPHS {
        let named = small_graph(0, 2, &mut random);
        let from_the_start = alone_on_a_vertex(&named, &[]).len();
        assert_eq!(peel(&named).most_waiting, from_the_start, "{named:?}");
    }
}

/// By hand: the last two codes do not have the same vertices, or they would be left over, and each has as
/// many as the other. So each has one to itself, and both wait.
#[test]
fn where_two_codes_or_more_build_two_wait_at_least() {
    let mut random = Random::new(SEED);
    let mut numbers = BTreeSet::new();
    for number in 0..GRAPHS {
        let named = small_graph(2, 2 + number % 2, &mut random);
        let peeled = peel(&named);
        if peeled.removal_list.len() == named.len() {
            numbers.insert(peeled.most_waiting);
        }
    }
    assert_eq!(numbers.first(), Some(&2), "{numbers:?}");
}
