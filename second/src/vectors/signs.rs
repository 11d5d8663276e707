//! Vectors of the sign: calls by hand over case 1's file and others, each refusal at its edges and each two of them at
//! once, and random traces.

mod cases;
mod order;
mod refusals;
mod traces;

use super::inputs::case_1_file;
use super::script::Script;
use super::traces::SignCall;
use crate::random::Random;
use crate::sign::{cleared, Report};

/// The codes of case 1, in the order of its lines.
const LINES: [&[u8]; 4] = [b"DA", b"BA", b"BB", b"BC"];

/// The vectors of the sign of a seed: those that have a name, and then this many random traces.
pub fn signs(seed: u64, traces: u64) -> String {
    let mut script = Script::default();
    script.comment(&format!(
        "vectors of the sign of seed {seed} with {traces} random traces"
    ));
    script.start();
    script.start_lists();
    cases::write(&mut script);
    refusals::write(&mut script);
    order::write(&mut script);
    traces::write(&mut script, &mut Random::new(seed), traces);
    script.text()
}

/// Makes the file these bytes, and the lists cleared ones with so many places.
fn begin(script: &mut Script, file: &[u8], places: usize) {
    let (levels, times) = cleared(places);
    script.file(file);
    script.lists(&levels, &times);
}

fn begin_case_1(script: &mut Script) {
    begin(script, &case_1_file(), LINES.len());
}

fn report(script: &mut Script, code: &[u8], level: i32, time: u32) {
    script.sign_call(&SignCall::Report(code.to_vec(), Report { level, time }));
}

fn ask(script: &mut Script, code: &[u8], now: u32, limit: u32) {
    script.sign_call(&SignCall::Ask {
        code: code.to_vec(),
        now,
        limit,
    });
}
