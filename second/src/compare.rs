//! The comparison: the same calls to a program and to the second program. Every answer, field by field, and every
//! byte of every buffer and list have to be equal.

mod call;
mod calls;
mod counts;
mod files;
mod lists;
mod named;
mod rounds;
mod second;
mod signs;

use crate::random::Random;
use call::{Call, Given};
use counts::Counts;

pub use calls::{
    Calls, DsAnswer, DsAsked, DsCounted, DsFound, DsOpened, DsPart, DsReported, ACCEPTED, AT,
    FRESH, NEVER, REFUSED, STALE, UNKNOWN,
};
pub use second::Second;

/// A program that is held to the second program, and what they have answered alike.
pub struct Comparison<'a> {
    program: &'a dyn Calls,
    counts: Counts,
}

/// Compares on the vectors that have a name and then on at least so many random calls. Gives the counts in words,
/// or words about the first call on which the two differ.
pub fn compare(program: &dyn Calls, calls: u64, seed: u64) -> Result<String, String> {
    let mut comparison = Comparison::new(program);
    comparison.named(seed)?;
    comparison.random(calls, seed)?;
    comparison.summary(seed)
}

impl<'a> Comparison<'a> {
    pub fn new(program: &'a dyn Calls) -> Comparison<'a> {
        Comparison {
            program,
            counts: Counts::default(),
        }
    }

    /// Compares on the vectors that have a name; the seed decides their largest lists.
    pub fn named(&mut self, seed: u64) -> Result<(), String> {
        named::compare(self, seed)
    }

    /// Compares on at least so many random calls.
    pub fn random(&mut self, calls: u64, seed: u64) -> Result<(), String> {
        let mut random = Random::new(seed);
        let enough = self.counts.calls() + calls;
        while self.counts.calls() < enough {
            rounds::compare(self, &mut random)?;
        }
        Ok(())
    }

    /// The counts, or words where some answer did not occur: then too little was compared.
    pub fn summary(&self, seed: u64) -> Result<String, String> {
        let missing = self.counts.missing();
        if !missing.is_empty() {
            return Err(format!("these never occurred: {}", missing.join(", ")));
        }
        Ok(format!(
            "compare: {}\ncompare: {} calls, 0 different (seed {seed})\n",
            self.counts.line(),
            self.counts.calls()
        ))
    }

    /// Makes a call to both programs, and gives what they give.
    fn ask(&mut self, call: &Call) -> Result<Given, String> {
        let given = call.given_by(self.program);
        let right = call.given_by(&Second);
        self.counts.add(&right);
        if given == right {
            return Ok(right);
        }
        Err(format!(
            "call {} differs\n  the second program: {}\n  the library:        {}\nas vectors, which `second trial` answers:\n{}",
            self.counts.calls(),
            right.words(&given),
            given.words(&right),
            call.vectors()
        ))
    }
}
