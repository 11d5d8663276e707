//! Demand 3 of the letter by brute force: on many small random lists, every non-empty set of codes
//! is tried as a group in which each vertex that a member names is named by at least two members.
//! The expected values come from that search, which shares nothing with the peeling; the most codes
//! waiting at once come from document 01's peeling word by word.

mod common;

use common::peeling::{named_vertices, peeling};
use common::{built, refusal};
use second::random::Random;
use second::text::run_and_ends;
use second::{build, length, lookup, open, show, CodeList, Found, Header};
use std::collections::BTreeSet;

/// Where the generator starts.
const SEED: u64 = 20_031;
/// How many lists are tried.
const LISTS: u32 = 1_500;
/// The fewest lists of each arity that must build, and that must be cyclic.
const FEWEST_OF_A_KIND: usize = 200;
/// The most codes of a list.
const MOST_CODES: u64 = 9;
/// The bytes that the random codes are made of.
const LETTERS: [u8; 4] = [0, 65, 66, 255];

/// A random list with everything else that a build takes.
#[derive(Debug)]
struct Trial {
    codes: Vec<Vec<u8>>,
    r: usize,
    v: usize,
    weights: Vec<u16>,
}

/// All codes of one to three letters.
fn all_short_codes() -> Vec<Vec<u8>> {
    let one: Vec<Vec<u8>> = LETTERS.iter().map(|&letter| vec![letter]).collect();
    let longer = |codes: &[Vec<u8>]| -> Vec<Vec<u8>> {
        codes
            .iter()
            .flat_map(|code| LETTERS.map(|letter| [&code[..], &[letter]].concat()))
            .collect()
    };
    let two = longer(&one);
    let three = longer(&two);
    [one, two, three].concat()
}

fn random_trial(random: &mut Random) -> Trial {
    let r = 2 + random.below(2) as usize;
    let v = 1 + random.below(10) as usize;
    let largest_weight = [1, 9, 65_535][random.below(3) as usize];
    let weights = (0..32 * r)
        .map(|_| random.below(largest_weight + 1) as u16)
        .collect();
    let mut unused = all_short_codes();
    let codes = (0..1 + random.below(MOST_CODES))
        .map(|_| unused.swap_remove(random.below(unused.len() as u64) as usize))
        .collect();
    Trial {
        codes,
        r,
        v,
        weights,
    }
}

/// Whether every vertex that a member of the set names is named by at least two members.
fn is_group(members: &[&Vec<usize>]) -> bool {
    members.iter().all(|vertices| {
        vertices.iter().all(|vertex| {
            let naming = members.iter().filter(|other| other.contains(vertex));
            naming.count() >= 2
        })
    })
}

/// The size of the largest group among all non-empty sets of codes, or 0 if there is no group.
fn largest_group(named: &[Vec<usize>]) -> usize {
    let mut largest = 0;
    for set in 1_u32..1 << named.len() {
        let members: Vec<&Vec<usize>> = (0..named.len())
            .filter(|k| set >> k & 1 == 1)
            .map(|k| &named[k])
            .collect();
        if is_group(&members) {
            largest = largest.max(members.len());
        }
    }
    largest
}

/// Checks a file that was built: each line once, all codes found and shown, strangers unknown.
fn check_built(trial: &Trial, file: &[u8], words: &str) {
    let n = trial.codes.len();
    let header = Header {
        n,
        r: trial.r,
        v: trial.v,
    };
    assert_eq!(open(file), Ok(header), "{words}");
    let mut lines = BTreeSet::new();
    for code in &trial.codes {
        let Found::At(line) = lookup(file, code) else {
            panic!("{code:?} has no line: {words}");
        };
        lines.insert(line);
        assert_eq!(show(file, line as u64).of(file), &code[..], "{words}");
    }
    assert_eq!(lines, (0..n).collect(), "{words}");
    for stranger in all_short_codes() {
        if !trial.codes.contains(&stranger) {
            assert_eq!(lookup(file, &stranger), Found::Unknown, "{words}");
        }
    }
}

/// Builds a trial and checks it against the brute force; the size of its largest group.
fn check(trial: &Trial, words: &str) -> usize {
    let (run, ends) = run_and_ends(&trial.codes);
    let list = CodeList {
        run: &run,
        ends: &ends,
    };
    let (r, v) = (trial.r as u64, trial.v as u64);
    let needed = length(trial.codes.len() as u64, r, v).expect("allowed numbers");
    let mut buffer = vec![0xA5; needed];
    let answer = build(&list, r, v, &trial.weights, &mut buffer);
    let named = named_vertices(&trial.codes, &trial.weights, trial.r, trial.v);
    let largest = largest_group(&named);
    if largest > 0 {
        assert_eq!(answer, Err(refusal(8, largest)), "{words}");
        assert_eq!(buffer, vec![0xA5; needed], "{words}");
    } else {
        assert_eq!(answer, built(peeling(&named).most_waiting()), "{words}");
        check_built(trial, &buffer, words);
    }
    largest
}

#[test]
fn cyclic_exactly_if_there_is_a_group() {
    let mut random = Random::new(SEED);
    let mut built = [0; 2];
    let mut cyclic = [0; 2];
    let mut partly_peeled = 0;
    for number in 0..LISTS {
        let trial = random_trial(&mut random);
        let words = format!("list {number} of seed {SEED}: {trial:?}");
        let largest = check(&trial, &words);
        let counts = if largest == 0 {
            &mut built
        } else {
            &mut cyclic
        };
        counts[trial.r - 2] += 1;
        if largest > 0 && largest < trial.codes.len() {
            partly_peeled += 1;
        }
    }
    for count in built.into_iter().chain(cyclic).chain([partly_peeled]) {
        assert!(
            count >= FEWEST_OF_A_KIND,
            "too few of a kind: built {built:?}, cyclic {cyclic:?}, partly peeled {partly_peeled}"
        );
    }
}
