//! The command `second`: takes its arguments, runs the command they name and gives its text, its
//! words and its exit status to the caller.

mod commands;

use commands::Outcome;
use std::io::Write;
use std::process::ExitCode;

fn main() -> ExitCode {
    let arguments: Vec<_> = std::env::args_os().skip(1).collect();
    let outcome = commands::run(&arguments);
    let written = std::io::stdout()
        .write_all(&outcome.text)
        .and_then(|()| std::io::stdout().flush());
    let outcome = match written {
        Ok(()) => outcome,
        Err(fault) => Outcome::failed(format!("standard output cannot be written: {fault}")),
    };
    if !outcome.words.is_empty() {
        eprintln!("second: {}", outcome.words);
    }
    ExitCode::from(outcome.status)
}
