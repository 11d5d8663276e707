//! What the calls give back: a refusal with its number and place, what a build gives on success, the
//! answer of a lookup, a part of a file. Every refusal number is explained here in words.

/// The numbers of the refusals, by name.
pub const ARITY: u8 = 1;
pub const PART_SIZE: u8 = 2;
pub const WEIGHTS: u8 = 3;
pub const TOO_MANY_CODES: u8 = 4;
pub const CODE_LIST: u8 = 5;
pub const BUFFER: u8 = 6;
pub const REPEATED: u8 = 7;
pub const CYCLIC: u8 = 8;
pub const LENGTH: u8 = 9;
pub const MARK: u8 = 10;
pub const HEADER_NUMBERS: u8 = 11;
pub const VALUE: u8 = 12;
pub const RANK: u8 = 13;
pub const KEY: u8 = 14;
pub const ASTRAY: u8 = 15;
pub const CODE_ASKED: u8 = 16;
pub const LEVEL_REPORTED: u8 = 17;
pub const EARLIER_TIME: u8 = 18;
pub const EARLIER_NOW: u8 = 19;
pub const LIMIT_ASKED: u8 = 22;
pub const LISTS_LENT: u8 = 23;

/// Every refusal in words, with what its place names.
const EXPLANATIONS: [(u8, &str); 21] = [
    (ARITY, "the arity is not 2 or 3"),
    (
        PART_SIZE,
        "the part size is 0, or arity times part size is over 4,096",
    ),
    (WEIGHTS, "the weights are not 32 times the arity in number"),
    (TOO_MANY_CODES, "there are more than 1,024 codes"),
    (
        CODE_LIST,
        "a code is empty or over 32 bytes, or the ends do not fit the run (place: the lowest such code, from 0)",
    ),
    (
        BUFFER,
        "the buffer is shorter than the file (place: the length needed)",
    ),
    (
        REPEATED,
        "a code equals an earlier one (place: the lowest such code, from 0)",
    ),
    (
        CYCLIC,
        "the codes are cyclic under these weights (place: the number of codes left)",
    ),
    (
        LENGTH,
        "the file is shorter than 7 bytes, or not of the length that its header calls for",
    ),
    (MARK, "a record has a wrong mark (place: its byte offset)"),
    (
        HEADER_NUMBERS,
        "the header's numbers are outside the sizes allowed",
    ),
    (
        VALUE,
        "a value is over the arity (place: the lowest such vertex), or spare bits are set (place: the number of vertices)",
    ),
    (
        RANK,
        "a rank entry is wrong (place: its number), or the assigned vertices are not as many as the codes (place: the number of rank entries)",
    ),
    (
        KEY,
        "a stored code's length is 0 or over 32, or its filling is not zero (place: the lowest such line)",
    ),
    (
        ASTRAY,
        "the code stored at a line does not lead to it (place: the lowest such line)",
    ),
    (CODE_ASKED, "the code asked for is empty or over 32 bytes"),
    (LEVEL_REPORTED, "the level is not -20,000 to 20,000"),
    (
        EARLIER_TIME,
        "the time is before that of the line's last report",
    ),
    (
        EARLIER_NOW,
        "the time now is before that of the line's last report",
    ),
    (LIMIT_ASKED, "the limit is not 1 to 86,400 seconds"),
    (LISTS_LENT, "a list has not one place for each line"),
];

/// A refusal: its number, and a place that is 0 where none is named.
#[derive(Clone, Copy, Debug, PartialEq, Eq)]
pub struct Refusal {
    pub number: u8,
    pub place: usize,
}

impl Refusal {
    /// What the refusal's number means, in words.
    pub fn explanation(&self) -> &'static str {
        EXPLANATIONS
            .iter()
            .find(|(number, _)| *number == self.number)
            .map_or("a number that the documents do not give", |(_, words)| {
                words
            })
    }
}

/// A refusal as the answer of a call.
pub fn refuse<T>(number: u8, place: usize) -> Result<T, Refusal> {
    Err(Refusal { number, place })
}

/// What a build gives on success.
#[derive(Clone, Copy, Debug, PartialEq, Eq)]
pub struct Built {
    /// The most codes waiting at once, counted after the start and after each peeling step.
    pub most_waiting: usize,
}

/// The answer of a lookup.
#[derive(Clone, Copy, Debug, PartialEq, Eq)]
pub enum Found {
    At(usize),
    Unknown,
    Refused(Refusal),
}

/// A part of a file: where it starts and how many bytes it has.
#[derive(Clone, Copy, Debug, PartialEq, Eq)]
pub struct Part {
    pub start: usize,
    pub length: usize,
}

impl Part {
    /// The empty part at the start of a file.
    pub const EMPTY: Part = Part {
        start: 0,
        length: 0,
    };

    /// The bytes of this part of the file; empty where the file does not have them all.
    pub fn of<'a>(&self, file: &'a [u8]) -> &'a [u8] {
        file.get(self.start..)
            .and_then(|rest| rest.get(..self.length))
            .unwrap_or_default()
    }
}
