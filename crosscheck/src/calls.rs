//! The calls of the second program on an input, each put down as a trial of the definitions.

use crate::inputs::{code, Input, BLANK};
use crate::page::bytes;
use second::header::checked_header;
use second::random::Random;
use second::{
    build as build_file, length, list as list_file, lookup, open, show, CodeList, Found, Header,
    Part, Refusal,
};
use std::collections::BTreeMap;
use std::fmt;

/// How often each answer was given.
#[derive(Default)]
pub struct Tally(BTreeMap<String, u32>);

/// Every answer that a page has to hold at least once.
const WANTED: [&str; 33] = [
    "build 0",
    "build 1",
    "build 2",
    "build 3",
    "build 4",
    "build 5",
    "build 6",
    "build 7",
    "build 8",
    "length of a file",
    "length of no file",
    "header 0",
    "header 9",
    "header 10",
    "header 11",
    "open 0",
    "open 9",
    "open 10",
    "open 11",
    "open 12",
    "open 13",
    "open 14",
    "open 15",
    "lookup At",
    "lookup Unknown",
    "lookup 9",
    "lookup 10",
    "lookup 11",
    "lookup 13",
    "lookup 16",
    "show nothing",
    "show a code",
    "show a code of a file that does not open",
];

impl Tally {
    fn add(&mut self, answer: &str) {
        *self.0.entry(answer.to_string()).or_default() += 1;
    }

    /// An answer that was wanted and never given.
    pub fn absent(&self) -> Option<&'static str> {
        WANTED
            .into_iter()
            .find(|&answer| !self.0.contains_key(answer))
    }
}

impl fmt::Display for Tally {
    fn fmt(&self, out: &mut fmt::Formatter) -> fmt::Result {
        let counts: Vec<String> = self
            .0
            .iter()
            .map(|(answer, times)| format!("{answer}: {times}"))
            .collect();
        write!(out, "{}", counts.join(", "))
    }
}

/// The trials of one list so far, and the tally of all lists.
pub struct Trials<'a> {
    pub list: Vec<String>,
    tally: &'a mut Tally,
}

impl Trials<'_> {
    pub fn new(tally: &mut Tally) -> Trials<'_> {
        let list = Vec::new();
        Trials { list, tally }
    }

    fn add(&mut self, answer: &str, trial: String) {
        self.tally.add(answer);
        self.list.push(trial);
    }
}

/// Builds what is lent under this name, and gives back the file if there is one.
pub fn build(input: &Input, name: &str, trials: &mut Trials) -> Option<Vec<u8>> {
    let list = CodeList {
        run: &input.run,
        ends: &input.ends,
    };
    let mut buffer = vec![BLANK; input.room];
    let answer = build_file(&list, input.r, input.v, &input.weights, &mut buffer);
    let (number, place, most) = answer.map_or_else(
        |no| (no.number, no.place, 0),
        |built| (0, 0, built.most_waiting),
    );
    let trial = format!("answers {name} {number} {place} {most}");
    trials.add(&format!("build {number}"), trial);
    let trial = format!("leaves {name} {}", bytes(&buffer));
    trials.add("buffer", trial);
    let size = measure(input.ends.len() as u64, input.r, input.v, trials);
    answer.ok()?;
    buffer.truncate(size);
    Some(buffer)
}

/// The length of the file for n, r and v; 0 where the sizes do not allow them.
fn measure(n: u64, r: u64, v: u64, trials: &mut Trials) -> usize {
    let (answer, size) = match length(n, r, v) {
        Some(size) => ("length of a file", size),
        None => ("length of no file", 0),
    };
    trials.add(answer, format!("measures {n} {r} {v} {size}"));
    size
}

/// Reads the header of these bytes, opens and lists them, looks up a listed code and another, and shows a line. `text` makes
/// the bytes on the page.
pub fn on_file(
    file: &[u8],
    text: &str,
    codes: &[Vec<u8>],
    random: &mut Random,
    trials: &mut Trials,
) {
    let header = checked_header(file);
    open_trial("header", ["reads", "stops"], header, text, trials);
    open_trial("open", ["opens", "fails"], open(file), text, trials);
    let listing = format!("prints {text} {}", bytes(&list_file(file)));
    trials.add("listing", listing);
    let n = codes.len() as u64;
    if n > 0 {
        look_up(file, text, &codes[random.below(n) as usize], trials);
    }
    look_up(file, text, &code(random, 3), trials);
    show_line(file, text, random.below(n + 1), trials);
}

/// What a call gave as n, r and v or as a refusal, in the words that the page has for the two.
fn open_trial(
    call: &str,
    words: [&str; 2],
    given: Result<Header, Refusal>,
    text: &str,
    trials: &mut Trials,
) {
    let [done, refused] = words;
    let (number, trial) = match given {
        Ok(Header { n, r, v }) => (0, format!("{done} {text} {n} {r} {v}")),
        Err(Refusal { number, place }) => (number, format!("{refused} {text} {number} {place}")),
    };
    trials.add(&format!("{call} {number}"), trial);
}

fn look_up(file: &[u8], text: &str, code: &[u8], trials: &mut Trials) {
    let asked = bytes(code);
    let (answer, trial) = match lookup(file, code) {
        Found::At(line) => ("At".to_string(), format!("finds {text} {asked} {line}")),
        Found::Unknown => ("Unknown".to_string(), format!("misses {text} {asked}")),
        Found::Refused(Refusal { number, place }) => (
            number.to_string(),
            format!("rejects {text} {asked} {number} {place}"),
        ),
    };
    trials.add(&format!("lookup {answer}"), trial);
}

fn show_line(file: &[u8], text: &str, line: u64, trials: &mut Trials) {
    let Part { start, length } = show(file, line);
    let answer = match (length > 0, open(file).is_ok()) {
        (false, _) => "show nothing",
        (true, true) => "show a code",
        (true, false) => "show a code of a file that does not open",
    };
    trials.add(answer, format!("shows {text} {line} {start} {length}"));
}
