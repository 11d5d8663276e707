//! The vectors of building and their answers. What is expected is typed from document 01 or worked
//! out beside each test.

#[path = "../common/mod.rs"]
mod common;

mod all;
mod built;
mod refused;
mod waiting;

use common::sections::{answered, answers_to, Section};
use second::vectors::builds;
use std::sync::OnceLock;

/// The seed and the number of lists that `tools/make-vectors` takes.
const SEED: u64 = 1;
const LISTS: u64 = 560;

/// The vectors, made once for all tests.
fn text() -> &'static str {
    static TEXT: OnceLock<String> = OnceLock::new();
    TEXT.get_or_init(|| builds(SEED, LISTS))
}

/// The sections of the vectors, answered once for all tests.
fn sections() -> &'static [Section] {
    static SECTIONS: OnceLock<Vec<Section>> = OnceLock::new();
    SECTIONS.get_or_init(|| answered(text()))
}

/// The answers of all sections with these words to the calls with this letter.
fn to(letter: &str, words: &str) -> Vec<&'static str> {
    answers_to(sections(), letter, words)
}

/// The answers of all sections with these words to builds, without the checksums.
fn to_builds(words: &str) -> Vec<&'static str> {
    to("B", words)
        .into_iter()
        .map(|answer| answer.rsplitn(3, ' ').nth(2).expect("two checksums"))
        .collect()
}
