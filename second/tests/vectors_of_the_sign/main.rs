//! The vectors of the sign and their answers. What is expected is typed from document 02 a) or worked out beside each
//! test.

#[path = "../common/mod.rs"]
mod common;

mod all;
mod named;
mod refused;
mod replayed;

use common::sections::{answered, answers_to, Section};
use second::vectors::signs;
use std::sync::OnceLock;

/// The seed and the number of traces that `tools/make-vectors` takes.
const SEED: u64 = 1;
const TRACES: u64 = 12;

/// The vectors, made once for all tests.
fn text() -> &'static str {
    static TEXT: OnceLock<String> = OnceLock::new();
    TEXT.get_or_init(|| signs(SEED, TRACES))
}

/// The sections of the vectors, answered once for all tests.
fn sections() -> &'static [Section] {
    static SECTIONS: OnceLock<Vec<Section>> = OnceLock::new();
    SECTIONS.get_or_init(|| answered(text()))
}

/// The answers of all sections with these words to questions.
fn to_questions(words: &str) -> Vec<&'static str> {
    answers_to(sections(), "Q", words)
}

/// The answers of all sections with these words to reports, without the checksums.
fn to_reports(words: &str) -> Vec<&'static str> {
    answers_to(sections(), "A", words)
        .into_iter()
        .map(|answer| answer.rsplitn(5, ' ').nth(4).expect("four checksums"))
        .collect()
}
