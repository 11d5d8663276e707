//! What the vectors are made of: what is lent to a build, files that are built, files written by
//! hand, and where a code leads in them.

use crate::file;
use crate::header::Header;
use crate::sizes::{KEY_BYTES, LONGEST_CODE, MARK_BYTES, MOST_CODES, WEIGHTS_OF_A_PART};
use crate::table::{landing_vertex, line, rank_entries};
use crate::text::run_and_ends;
use crate::vertices::vertices;
use crate::{build, length, Built, CodeList, Refusal};

/// The codes of document 01's case 1, in list order.
pub const CASE_1: [&[u8]; 4] = [b"BA", b"BB", b"DA", b"BC"];

/// The weights with p(j,j) = 1 for every part j and 0 elsewhere; for r = 2 those of case 1.
pub fn diagonal(r: usize) -> Vec<u16> {
    let mut weights = vec![0; WEIGHTS_OF_A_PART * r];
    for j in 0..r {
        weights[WEIGHTS_OF_A_PART * j + j] = 1;
    }
    weights
}

/// Everything a build is given; the buffer by its length.
#[derive(Clone)]
pub struct Input {
    pub run: Vec<u8>,
    pub ends: Vec<u16>,
    pub r: u64,
    pub v: u64,
    pub weights: Vec<u16>,
    pub room: usize,
}

impl Input {
    /// An input with room for the file and no more; without any where the sizes allow no file.
    pub fn new(codes: &[Vec<u8>], r: u64, v: u64, weights: &[u16]) -> Input {
        let (run, ends) = run_and_ends(codes);
        let mut input = Input {
            run,
            ends,
            r,
            v,
            weights: weights.to_vec(),
            room: 0,
        };
        input.room = input.needed().unwrap_or(0);
        input
    }

    /// The length of the file, if the sizes allow one.
    pub fn needed(&self) -> Option<usize> {
        length(self.ends.len() as u64, self.r, self.v)
    }

    /// The list as it is lent.
    pub fn list(&self) -> CodeList<'_> {
        CodeList {
            run: &self.run,
            ends: &self.ends,
        }
    }

    /// Builds into a buffer.
    pub fn build(&self, buffer: &mut [u8]) -> Result<Built, Refusal> {
        build(&self.list(), self.r, self.v, &self.weights, buffer)
    }
}

/// 1,024 codes of two bytes, (0,0), (0,1) and so on.
pub fn many() -> Vec<Vec<u8>> {
    (0..MOST_CODES)
        .map(|k| vec![(k / 256) as u8, (k % 256) as u8])
        .collect()
}

pub fn owned(codes: &[&[u8]]) -> Vec<Vec<u8>> {
    codes.iter().map(|code| code.to_vec()).collect()
}

/// The file that a list builds, if it builds.
pub fn built(codes: &[Vec<u8>], r: u64, v: u64, weights: &[u16]) -> Option<Vec<u8>> {
    let input = Input::new(codes, r, v, weights);
    let mut file = vec![0; input.room];
    input.build(&mut file).ok()?;
    Some(file)
}

/// The file of a list that is known to build.
pub fn directory(codes: &[&[u8]], r: u64, v: u64, weights: &[u16]) -> Vec<u8> {
    built(&owned(codes), r, v, weights).expect("the list builds")
}

pub fn case_1_file() -> Vec<u8> {
    directory(&CASE_1, 2, 4, &diagonal(2))
}

/// A file with these values, with the rank entries that are right for them and with these codes
/// stored, whether or not the codes lead to their lines.
pub fn strangers_file(
    r: usize,
    v: usize,
    weights: &[u16],
    values: &[usize],
    stored: &[&[u8]],
) -> Vec<u8> {
    let n = stored.len();
    let entries = rank_entries(values, r);
    file::write(&Header { n, r, v }, weights, values, &entries, stored)
}

/// A copy of a file with a change to it.
pub fn changed(file: &[u8], change: impl FnOnce(&mut Vec<u8>)) -> Vec<u8> {
    let mut copy = file.to_vec();
    change(&mut copy);
    copy
}

/// The line that a code leads to by these values; none where its landing vertex is unassigned.
pub fn lead(code: &[u8], weights: &[u16], values: &[usize], r: usize, v: usize) -> Option<usize> {
    let landing_vertex = landing_vertex(&vertices(code, weights, r, v), values, r);
    (values[landing_vertex] != r).then(|| line(landing_vertex, values, r))
}

/// Where the length of a line's code is stored.
pub fn length_place(header: &Header, line: usize) -> usize {
    header.key_record(line) + MARK_BYTES
}

/// Where the code of a line is stored, with its length before it and its filling after it.
pub fn key_places(header: &Header, line: usize) -> std::ops::Range<usize> {
    length_place(header, line)..header.key_record(line) + KEY_BYTES
}

/// The code stored at a line, if its length is allowed.
pub fn stored_code<'a>(file: &'a [u8], header: &Header, line: usize) -> &'a [u8] {
    let length = file::stored_length(file, header, line);
    &file::code_and_filling(file, header, line)[..length.min(LONGEST_CODE)]
}
