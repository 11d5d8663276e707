//! The commands build, open, lookup, show, list, vectors, builds, signs, trial and compare: what each reads,
//! writes and says.

mod compare;

use compare::compare_command;
use second::answers::{CODE_LIST, CYCLIC, REPEATED, WEIGHTS};
use second::header::Header;
use second::listing::refused;
use second::text;
use second::trial::answers;
use second::vectors::{builds, signs, vectors};
use second::{build, length, list, lookup, open, show, CodeList, Found, Refusal};
use std::ffi::{OsStr, OsString};
use std::fs;
use std::io::{Read, Write};
use std::path::Path;

const USAGE: &str = "usage:
  second build CODES WEIGHTS R V FILE   build a directory and write it to FILE
  second open FILE                      open and check a directory file
  second lookup FILE CODE               look a code up (0x before hex digits)
  second show FILE LINE                 show the code of a line in hex
  second list [FILE]                    list all lines (standard input without FILE)
  second vectors SEED LISTS             write vectors of reading, with this many random lists
  second builds SEED LISTS              write vectors of building, with this many random lists
  second signs SEED TRACES              write vectors of the sign, with this many random traces
  second trial [FILE]                   answer vectors (standard input without FILE)
  second compare [CALLS [SEED]]         compare the library with this program, on this many random calls";

const COMMANDS: [&str; 10] = [
    "build", "open", "lookup", "show", "list", "vectors", "builds", "signs", "trial", "compare",
];

/// The most arguments of compare.
const MOST_OF_COMPARE: usize = 2;

/// Exit status of a refusal or of a file that cannot be read or written.
const FAILED: u8 = 1;
/// Exit status of a wrong call.
const WRONG_CALL: u8 = 2;

/// What a command comes to: text for standard output, words for standard error, exit status.
pub struct Outcome {
    pub text: Vec<u8>,
    pub words: String,
    pub status: u8,
}

impl Outcome {
    fn success(text: impl Into<Vec<u8>>) -> Outcome {
        Outcome {
            text: text.into(),
            words: String::new(),
            status: 0,
        }
    }

    pub fn failed(words: String) -> Outcome {
        Outcome {
            text: Vec::new(),
            words,
            status: FAILED,
        }
    }

    fn wrong_call(fault: &str) -> Outcome {
        Outcome {
            text: Vec::new(),
            words: format!("{fault}\n{USAGE}"),
            status: WRONG_CALL,
        }
    }

    /// A refused file: the text on standard output, the explanation on standard error.
    fn refused(text: impl Into<Vec<u8>>, refusal: &Refusal) -> Outcome {
        Outcome {
            text: text.into(),
            words: in_words(refusal),
            status: FAILED,
        }
    }
}

/// Runs the command that the arguments name.
pub fn run(arguments: &[OsString]) -> Outcome {
    let Some((command, arguments)) = arguments.split_first() else {
        return Outcome::wrong_call("a command is missing");
    };
    let outcome = match (command.to_str(), arguments) {
        (Some("build"), [codes, weights, r, v, file]) => build_command(codes, weights, r, v, file),
        (Some("open"), [file]) => open_command(file),
        (Some("lookup"), [file, code]) => lookup_command(file, code),
        (Some("show"), [file, line]) => show_command(file, line),
        (Some("list"), []) => list_command(None),
        (Some("list"), [file]) => list_command(Some(file)),
        (Some("vectors"), [seed, lists]) => vectors_command(vectors, seed, lists, "LISTS"),
        (Some("builds"), [seed, lists]) => vectors_command(builds, seed, lists, "LISTS"),
        (Some("signs"), [seed, traces]) => vectors_command(signs, seed, traces, "TRACES"),
        (Some("trial"), []) => trial_command(None),
        (Some("trial"), [file]) => trial_command(Some(file)),
        (Some("compare"), given) if given.len() <= MOST_OF_COMPARE => compare_command(given),
        (Some(known), _) if COMMANDS.contains(&known) => Err(Outcome::wrong_call(&format!(
            "{known} takes another number of arguments"
        ))),
        _ => Err(Outcome::wrong_call(&format!(
            "unknown command `{}`",
            command.to_string_lossy()
        ))),
    };
    outcome.unwrap_or_else(|failure| failure)
}

/// A refusal's number, place and explanation.
fn in_words(refusal: &Refusal) -> String {
    format!(
        "refusal {}, place {}: {}",
        refusal.number,
        refusal.place,
        refusal.explanation()
    )
}

fn read(path: &OsStr) -> Result<Vec<u8>, Outcome> {
    fs::read(path).map_err(|fault| {
        Outcome::failed(format!(
            "{} cannot be read: {fault}",
            path.to_string_lossy()
        ))
    })
}

fn decimal(argument: &OsStr, name: &str) -> Result<u64, Outcome> {
    text::decimal(argument.as_encoded_bytes()).ok_or_else(|| {
        Outcome::wrong_call(&format!(
            "{name} is `{}`, not a decimal number",
            argument.to_string_lossy()
        ))
    })
}

/// Reads the codes and the weights, builds their directory and writes it to the file.
fn build_command(
    codes_path: &OsStr,
    weights_path: &OsStr,
    r: &OsStr,
    v: &OsStr,
    path: &OsStr,
) -> Result<Outcome, Outcome> {
    let r = decimal(r, "R")?;
    let v = decimal(v, "V")?;
    let in_file = |path: &OsStr, fault: String| {
        Outcome::failed(format!("{}: {fault}", path.to_string_lossy()))
    };
    let codes_text = read(codes_path)?;
    let codes = text::codes(&codes_text).map_err(|fault| in_file(codes_path, fault))?;
    let weights =
        text::weights(&read(weights_path)?).map_err(|fault| in_file(weights_path, fault))?;
    let (run, ends) = text::run_and_ends(&codes);
    let list = CodeList {
        run: &run,
        ends: &ends,
    };
    // Outside the sizes there is no length, and the build refuses before it looks at the buffer.
    let mut buffer = vec![0; length(codes.len() as u64, r, v).unwrap_or(0)];
    build(&list, r, v, &weights, &mut buffer).map_err(|refusal| {
        Outcome::failed(build_refused(&refusal, &codes_text, codes.len(), &weights))
    })?;
    write_whole(Path::new(path), &buffer)?;
    Ok(Outcome::success(""))
}

/// A refused build in words, with what helps to find its cause in the text files.
fn build_refused(refusal: &Refusal, codes_text: &[u8], n: usize, weights: &[u16]) -> String {
    let detail = match refusal.number {
        WEIGHTS => format!("; there are {} weights", weights.len()),
        CODE_LIST | REPEATED => match text::code_lines(codes_text).get(refusal.place) {
            Some(line) => format!(
                "; line {} of the codes file, `{}`",
                refusal.place + 1,
                text::excerpt(line)
            ),
            None => String::new(),
        },
        CYCLIC => format!("; {} of the {n} codes are left", refusal.place),
        _ => String::new(),
    };
    in_words(refusal) + &detail
}

/// Writes a file under a temporary name beside it and then gives it its own name, so that nothing
/// half-written is ever found there.
fn write_whole(path: &Path, bytes: &[u8]) -> Result<(), Outcome> {
    let not_written =
        |fault: String| Outcome::failed(format!("{} cannot be written: {fault}", path.display()));
    if fs::metadata(path).is_ok_and(|existing| !existing.is_file()) {
        return Err(not_written("it is not a regular file".to_string()));
    }
    let mut temporary = path.as_os_str().to_os_string();
    temporary.push(format!(".unfinished-{}", std::process::id()));
    let mut file =
        fs::File::create_new(&temporary).map_err(|fault| not_written(fault.to_string()))?;
    let written = file
        .write_all(bytes)
        .and_then(|()| file.sync_all())
        .and_then(|()| fs::rename(&temporary, path));
    written.map_err(|fault| match fs::remove_file(&temporary) {
        Ok(()) => not_written(fault.to_string()),
        Err(_) => not_written(format!(
            "{fault}; {} is left behind",
            temporary.to_string_lossy()
        )),
    })
}

fn open_command(path: &OsStr) -> Result<Outcome, Outcome> {
    Ok(match open(&read(path)?) {
        Ok(Header { n, r, v }) => Outcome::success(format!("opened {n} {r} {v}\n")),
        Err(refusal) => Outcome::refused(format!("{}\n", refused(&refusal)), &refusal),
    })
}

fn lookup_command(path: &OsStr, code: &OsStr) -> Result<Outcome, Outcome> {
    let code = text::code(code.as_encoded_bytes())
        .map_err(|fault| Outcome::wrong_call(&format!("CODE {fault}")))?;
    Ok(match lookup(&read(path)?, &code) {
        Found::At(line) => Outcome::success(format!("at {line}\n")),
        Found::Unknown => Outcome::success("unknown\n"),
        Found::Refused(refusal) => Outcome::refused(format!("{}\n", refused(&refusal)), &refusal),
    })
}

fn show_command(path: &OsStr, line: &OsStr) -> Result<Outcome, Outcome> {
    let line = decimal(line, "LINE")?;
    let file = read(path)?;
    let code = show(&file, line).of(&file);
    Ok(Outcome::success(format!("{}\n", text::hex(code))))
}

/// The lister.
fn list_command(path: Option<&OsString>) -> Result<Outcome, Outcome> {
    let file = read_or_input(path)?;
    Ok(match open(&file) {
        Ok(_) => Outcome::success(list(&file)),
        Err(refusal) => Outcome::refused(list(&file), &refusal),
    })
}

/// The bytes of a file, or without one all of standard input, however long it is.
fn read_or_input(path: Option<&OsString>) -> Result<Vec<u8>, Outcome> {
    let Some(path) = path else {
        let mut input = Vec::new();
        std::io::stdin()
            .read_to_end(&mut input)
            .map_err(|fault| Outcome::failed(format!("standard input cannot be read: {fault}")))?;
        return Ok(input);
    };
    read(path)
}

/// The vectors that are made from a seed and a number of lists or traces.
fn vectors_command(
    make: fn(u64, u64) -> String,
    seed: &OsStr,
    number: &OsStr,
    name: &str,
) -> Result<Outcome, Outcome> {
    let seed = decimal(seed, "SEED")?;
    let number = decimal(number, name)?;
    Ok(Outcome::success(make(seed, number)))
}

fn trial_command(path: Option<&OsString>) -> Result<Outcome, Outcome> {
    let answers = answers(&read_or_input(path)?).map_err(Outcome::failed)?;
    Ok(Outcome::success(answers))
}
