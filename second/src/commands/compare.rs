//! The command compare: how many calls and which seed, and what comes of it.

use super::{decimal, Outcome};
use std::ffi::{OsStr, OsString};
use std::time::{SystemTime, UNIX_EPOCH};

/// The random calls and the seed where none are given.
const CALLS: u64 = 100_000;
const SEED: u64 = 1;

/// The word for a seed that is drawn from the time.
const FROM_THE_TIME: &str = "random";

/// Compares the library that is linked with the second program.
pub fn compare_command(arguments: &[OsString]) -> Result<Outcome, Outcome> {
    let calls = match arguments.first() {
        Some(calls) => decimal(calls, "CALLS")?,
        None => CALLS,
    };
    let seed = match arguments.get(1) {
        Some(seed) => seed_of(seed)?,
        None => SEED,
    };
    compared(calls, seed)
}

fn seed_of(argument: &OsStr) -> Result<u64, Outcome> {
    if argument != FROM_THE_TIME {
        return decimal(argument, "SEED");
    }
    let since = SystemTime::now().duration_since(UNIX_EPOCH);
    Ok(since.map_or(SEED, |time| time.as_nanos() as u64))
}

#[cfg(feature = "library")]
fn compared(calls: u64, seed: u64) -> Result<Outcome, Outcome> {
    let compared = second::compare::compare(&second::library::Library, calls, seed);
    let text =
        compared.map_err(|words| Outcome::failed(format!("compare, seed {seed}: {words}")))?;
    Ok(Outcome::success(text))
}

#[cfg(not(feature = "library"))]
fn compared(_calls: u64, _seed: u64) -> Result<Outcome, Outcome> {
    Err(Outcome::failed(
        "compare: this program was built without the library; tools/try-callers builds it with `--features library` and runs it"
            .to_string(),
    ))
}
