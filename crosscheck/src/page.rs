//! The text of the page: definitions of inputs and files, and theorems over lists of trials.

use crate::inputs::{Input, BLANK};

const HEADER: &str = "use Rattle.std.specs.Prelude.{◌≡◌, refl, true, List, [], ◌∷◌, ℕ, take, set, replicate}
use Rattle.counting.specs.Lists.{every}
use Rattle.directory.specs.Building.{Lent}
use Rattle.directory.proofs.Trials.{answers, leaves, measures, reads, stops, opens, fails, finds, misses, rejects, shows, prints, is_so}
";

/// Trials of one theorem: few enough for the checker's limit on one computation.
const TRIALS_OF_A_THEOREM: usize = 24;

pub struct Page(String);

impl Page {
    pub fn new(seed: u64, lists: u64) -> Page {
        Page(format!(
            "-- What the second program answers: {lists} lists, some more in which more codes wait later, seed {seed}.\n{HEADER}"
        ))
    }

    pub fn text(&self) -> &str {
        &self.0
    }

    pub fn define(&mut self, name: &str, kind: &str, value: &str) {
        self.0 += &format!("\n{name} : {kind}\n{name} = {value}\n");
    }

    /// Theorems that all these trials of list `number` hold, which name what is defined.
    pub fn state(&mut self, number: u64, defined: &[String], trials: &[String]) {
        let defined = defined.join(" ");
        for (k, part) in trials.chunks(TRIALS_OF_A_THEOREM).enumerate() {
            let name = format!("list{number}_{k}");
            let list = part.join("\n    ∷ ");
            self.0 += &format!("\n{name} : every is_so (\n    {list}\n    ∷ []) ≡ true\n");
            self.0 += &format!("unfolding {defined} is_so\n{name} = refl\n");
        }
    }
}

/// A list of numbers.
fn numbers<T: std::fmt::Display>(list: &[T]) -> String {
    let items: Vec<String> = list.iter().map(|number| format!("{number} ∷ ")).collect();
    format!("({}[])", items.concat())
}

pub fn bytes(list: &[u8]) -> String {
    numbers(list)
}

/// What is lent to a build.
pub fn lent(input: &Input) -> String {
    format!(
        "record {{ run = {}; ends = {}; r = {}; v = {}; weights = {}; buffer = replicate {} {BLANK} }}",
        numbers(&input.run),
        numbers(&input.ends),
        input.r,
        input.v,
        numbers(&input.weights),
        input.room
    )
}
