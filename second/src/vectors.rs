//! Vectors for the trial of a reader, of a builder and of a sign: files, what is lent to a build or to
//! the sign, and the calls, as lines of text. `vectors` makes those of reading, `builds` those of
//! building and `signs` those of the sign.
//!
//! | Line | Means |
//! |---|---|
//! | `# WORDS` | nothing: says where the next vectors come from |
//! | `C LENGTH` | the file is cut to this length, or lengthened to it with zeros |
//! | `P PLACE BYTES` | the file's bytes from this place on become these |
//! | `F FIRST` | the file's bytes become this number, the next and so on, mod 256 |
//! | `O`, `H` | open the file; read its header alone |
//! | `L BYTES` | look a code up; `L` alone, the empty code |
//! | `S LINE` | show a line |
//! | `T` | list the file |
//! | `D` | show every byte of the file |
//! | `N N R V` | the length of a file |
//! | `G NUMBER` | the group of a refusal number and what its place means |
//! | `R BYTES` | the run of the code list becomes these; `R` alone, the empty run |
//! | `Z LENGTH` | the run is cut to this length, or lengthened to it with zeros |
//! | `E NUMBERS` | the ends of the code list become these; `E` alone, no ends |
//! | `W NUMBERS` | the weights become these; `W` alone, no weights |
//! | `B R V LENGTH` | the file is made so long, as `C` does, and is the buffer of a build |
//! | `K PLACES` | the levels and the times become cleared lists with so many places |
//! | `V LENGTH`, `U LENGTH` | the levels are cut to this length or lengthened to it with zeros; the times |
//! | `X PLACE BYTES`, `Y PLACE BYTES` | the levels' bytes from this place on become these; the times' |
//! | `A BYTES LEVEL TIME` | report a level for a code, with the lists as they are |
//! | `Q BYTES NOW LIMIT` | ask for the level of a code |
//!
//! Numbers are decimal, up to 18,446,744,073,709,551,615, ends and weights up to 65,535, times and
//! limits up to 4,294,967,295; a level is a number of 32 bits, with a minus before it where it is below
//! zero. Bytes are lowercase hex; for the empty code `A` and `Q` have none, and so two blanks. The file
//! and the run are empty at first and have at most 65,536 bytes, the lists too and at most 4,104; a code
//! that is asked for has at most 4,096. There are at most 2,048 ends and 128 weights, at first none.
//! What a build leaves in its buffer is the file for the vectors that follow, and what a report leaves
//! in the lists are their lists. `trial` answers the calls.

pub(crate) mod building;
mod cases;
mod edges;
pub(crate) mod faults;
pub(crate) mod inputs;
pub(crate) mod lists;
mod order;
pub(crate) mod script;
mod signs;
pub mod traces;

use crate::header::checked_header;
use crate::random::Random;
use script::Script;

pub use building::builds;
pub use signs::signs;

/// Lines far past the last: as 32 bits or 64 bits that wrap, some would be line 0 or 1.
pub(crate) const HUGE_LINES: [u64; 5] = [
    (1 << 16) + 1,
    1 << 32,
    (1 << 32) + 1,
    u64::MAX / KEY_BYTES + 1,
    u64::MAX,
];

/// Bytes of a KY record.
const KEY_BYTES: u64 = crate::sizes::KEY_BYTES as u64;

/// The vectors of reading of a seed: those that are the same for every seed, and then this many random lists.
pub fn vectors(seed: u64, lists: u64) -> String {
    let mut script = Script::default();
    let mut random = Random::new(seed);
    script.comment(&format!("vectors of seed {seed} with {lists} random lists"));
    cases::write(&mut script);
    order::write(&mut script);
    edges::write(&mut script, &mut random);
    lists::write(&mut script, &mut random, lists);
    script.text()
}

/// Reads all of a file: opens it, looks these codes up, shows every line and two past the last.
fn read_all(script: &mut Script, file: &[u8], codes: &[&[u8]]) {
    script.file(file);
    script.open();
    script.header();
    for code in codes {
        script.lookup(code);
    }
    let n = checked_header(file).map_or(0, |header| header.n as u64);
    for line in 0..n + 2 {
        script.show(line);
    }
}
