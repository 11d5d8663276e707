//! Vectors of building: each build in a buffer whose bytes are known, and where it succeeds, the
//! calls of reading on the file that it leaves.

mod cases;
pub mod lists;
mod order;
mod refusals;
mod sizes;
mod waiting;

use super::inputs::Input;
use super::read_all;
use super::script::Script;
use crate::random::Random;

/// The first byte of a buffer before a build, where nothing asks for another.
const COLOUR: u8 = 0xA5;

/// The vectors of building of a seed: those that have a name, and then this many random lists.
pub fn builds(seed: u64, lists: u64) -> String {
    let mut script = Script::default();
    let mut random = Random::new(seed);
    script.comment(&format!(
        "vectors of building of seed {seed} with {lists} random lists"
    ));
    script.start();
    cases::write(&mut script);
    waiting::write(&mut script);
    refusals::write(&mut script);
    order::write(&mut script);
    sizes::write(&mut script, &mut random);
    lists::write(&mut script, &mut random, lists);
    script.text()
}

/// Builds into a buffer that is coloured before; whether it succeeded is given back.
fn build(script: &mut Script, input: &Input) -> bool {
    script.colour(input.room, COLOUR);
    script.build(input).is_ok()
}

/// Builds, and reads what is built.
fn round_trip(script: &mut Script, input: &Input, strangers: &[&[u8]]) {
    if build(script, input) {
        read_back(script, input, strangers);
    }
}

/// Reads the file that a build has left at the start of its buffer: every call, with every code of
/// the list, these strangers and every line.
fn read_back(script: &mut Script, input: &Input, strangers: &[&[u8]]) {
    let (file, codes) = built(script, input);
    read_all(script, &file, &codes);
    for stranger in strangers {
        script.lookup(stranger);
    }
    script.list();
}

/// The file that a build has left, and its codes.
fn built<'a>(script: &Script, input: &'a Input) -> (Vec<u8>, Vec<&'a [u8]>) {
    let needed = input.needed().expect("sizes that are allowed");
    let codes = input.list().codes().expect("a list that is allowed");
    (script.left()[..needed].to_vec(), codes)
}
