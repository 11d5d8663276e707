//! The trial: reads vectors (see `vectors`) and writes the answers of the calls.
//!
//! | Call | Answers |
//! |---|---|
//! | `O`, `H` | `opened N R V`, `refused NUMBER PLACE` |
//! | `L` | `at LINE`, `unknown`, `refused NUMBER PLACE` |
//! | `S` | `shown` and the code in hex, or `nothing` |
//! | `D` | the same of all of the file |
//! | `T` | the lister's lines |
//! | `B` | `built MOST`, with the most codes waiting at once, or `refused NUMBER PLACE`, and two checksums of the whole buffer |
//! | `N` | `length` and a number, 0 outside the sizes |
//! | `G` | `group`, the calls that give the number, and what its place names |
//! | `A` | `accepted LINE`, `unknown` or `refused NUMBER PLACE`, and two checksums of the levels and two of the times |
//! | `Q` | `never`, `fresh LEVEL`, `stale LEVEL AGE`, `unknown` or `refused NUMBER PLACE` |

mod checksums;
pub(crate) mod signs;
mod words;

use crate::header::checked_header;
use crate::text::{bytes_of_hex, decimal, excerpt};
use crate::{build, length, list, lookup, open, show, CodeList};
use words::{built, found, grouped, opened, shown};

/// The most bytes of the file under trial and of the run, and of a code that is looked up.
pub const LONGEST_FILE: usize = 65_536;
const LONGEST_CODE_ASKED: usize = 4_096;

/// The most ends and weights that are lent.
const MOST_ENDS: usize = 2_048;
const MOST_WEIGHTS: usize = 128;

/// What the vectors leave to those that follow: the file under trial, what is lent to a build, and the lists that are
/// lent to the sign.
#[derive(Default)]
pub(crate) struct Held {
    pub file: Vec<u8>,
    pub run: Vec<u8>,
    pub ends: Vec<u16>,
    pub weights: Vec<u16>,
    pub levels: Vec<u8>,
    pub times: Vec<u8>,
}

/// The answers to vectors, or words about the first line that is no vector.
pub fn answers(vectors: &[u8]) -> Result<String, String> {
    Ok(each_answer(vectors)?.concat())
}

/// The text that answers each line, empty where there is none.
pub fn each_answer(vectors: &[u8]) -> Result<Vec<String>, String> {
    let mut held = Held::default();
    let mut texts = Vec::new();
    for (k, line) in vectors.split_inclusive(|&byte| byte == b'\n').enumerate() {
        let line = line.strip_suffix(b"\n").unwrap_or(line);
        let no_vector = || format!("line {} is no vector: `{}`", k + 1, excerpt(line));
        texts.push(answer(line, &mut held).ok_or_else(no_vector)?);
    }
    Ok(texts)
}

/// The text that answers a vector, if it is one; a comment and a change have none.
fn answer(line: &[u8], held: &mut Held) -> Option<String> {
    let words: Vec<&[u8]> = line.split(|&byte| byte == b' ').collect();
    let (&letter, fields) = words.split_first()?;
    match (letter, fields) {
        (b"#", _) => Some(String::new()),
        (b"T", []) => String::from_utf8(list(&held.file)).ok(),
        (b"C" | b"P" | b"F" | b"R" | b"Z" | b"E" | b"W" | b"K" | b"V" | b"U" | b"X" | b"Y", _) => {
            change(letter, fields, held).map(|()| String::new())
        }
        _ => call(letter, fields, held).map(|words| words + "\n"),
    }
}

/// Changes what is held.
pub(crate) fn change(letter: &[u8], fields: &[&[u8]], held: &mut Held) -> Option<()> {
    match (letter, fields) {
        (b"C", [length]) => resize(&mut held.file, length)?,
        (b"P", [place, bytes]) => put(&mut held.file, place, bytes)?,
        (b"F", [first]) => count_up(&mut held.file, first)?,
        (b"R", []) => held.run.clear(),
        (b"R", [bytes]) => held.run = bytes_up_to(LONGEST_FILE, bytes)?,
        (b"Z", [length]) => resize(&mut held.run, length)?,
        (b"E", ends) => held.ends = numbers_up_to(MOST_ENDS, ends)?,
        (b"W", weights) => held.weights = numbers_up_to(MOST_WEIGHTS, weights)?,
        _ => return signs::change(letter, fields, held),
    }
    Some(())
}

/// The words that answer a call.
fn call(letter: &[u8], fields: &[&[u8]], held: &mut Held) -> Option<String> {
    let file = &mut held.file;
    Some(match (letter, fields) {
        (b"O", []) => opened(open(file)),
        (b"H", []) => opened(checked_header(file)),
        (b"L", code) => found(lookup(file, &bytes_asked(code)?)),
        (b"S", [line]) => shown(show(file, decimal(line)?).of(file)),
        (b"D", []) => shown(file),
        (b"B", [r, v, length]) => {
            resize(file, length)?;
            let list = CodeList {
                run: &held.run,
                ends: &held.ends,
            };
            let answer = build(&list, decimal(r)?, decimal(v)?, &held.weights, file);
            built(answer, file)
        }
        (b"N", [n, r, v]) => {
            let length = length(decimal(n)?, decimal(r)?, decimal(v)?);
            format!("length {}", length.unwrap_or(0))
        }
        (b"G", [number]) => grouped(u8::try_from(decimal(number)?).ok()?),
        _ => return signs::answer(letter, fields, held),
    })
}

/// Cuts bytes to a length, or lengthens them to it with zeros.
pub(crate) fn resize(bytes: &mut Vec<u8>, length: &[u8]) -> Option<()> {
    bytes.resize(number_up_to(LONGEST_FILE, length)?, 0);
    Some(())
}

/// Puts bytes into a file or a list that has them all.
fn put(held: &mut [u8], place: &[u8], bytes: &[u8]) -> Option<()> {
    let place = usize::try_from(decimal(place)?).ok()?;
    let bytes = bytes_of_hex(bytes).ok()?;
    let places = held.get_mut(place..)?.get_mut(..bytes.len())?;
    places.copy_from_slice(&bytes);
    Some(())
}

/// Makes the bytes of a file a number, the next and so on, each mod 256.
fn count_up(file: &mut [u8], first: &[u8]) -> Option<()> {
    let first = usize::from(u8::try_from(decimal(first)?).ok()?);
    for (place, byte) in file.iter_mut().enumerate() {
        *byte = ((first + place) % 256) as u8;
    }
    Some(())
}

/// The code of a lookup; without a word for it, the empty code.
pub(crate) fn bytes_asked(words: &[&[u8]]) -> Option<Vec<u8>> {
    match words {
        [] => Some(Vec::new()),
        [code] => bytes_up_to(LONGEST_CODE_ASKED, code),
        _ => None,
    }
}

fn number_up_to(most: usize, digits: &[u8]) -> Option<usize> {
    let number = usize::try_from(decimal(digits)?).ok()?;
    (number <= most).then_some(number)
}

fn bytes_up_to(most: usize, digits: &[u8]) -> Option<Vec<u8>> {
    let bytes = bytes_of_hex(digits).ok()?;
    (bytes.len() <= most).then_some(bytes)
}

fn numbers_up_to(most: usize, words: &[&[u8]]) -> Option<Vec<u16>> {
    if words.len() > most {
        return None;
    }
    words
        .iter()
        .map(|word| u16::try_from(decimal(word)?).ok())
        .collect()
}
