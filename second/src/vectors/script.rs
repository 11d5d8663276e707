//! The text of the vectors: what turns one file or list into the next, what is lent to a build, and
//! the calls.

mod changes;

use super::inputs::Input;
use super::traces::SignCall;
use crate::sign::{report, Report};
use crate::text::hex;
use crate::{Built, Refusal};
use changes::{of_a_file, of_lists, MOST_OF_A_LINE};

/// The vectors so far, and what they leave: the file, what is lent to a build, and the sign's lists.
#[derive(Default)]
pub struct Script {
    text: String,
    file: Vec<u8>,
    run: Vec<u8>,
    ends: Vec<u16>,
    weights: Vec<u16>,
    levels: Vec<u8>,
    times: Vec<u8>,
}

impl Script {
    pub fn text(self) -> String {
        self.text
    }

    fn line(&mut self, line: &str) {
        self.text += line;
        self.text += "\n";
    }

    pub fn comment(&mut self, words: &str) {
        self.line(&format!("# {words}"));
    }

    /// Empties the file, whatever other vectors have left.
    pub fn start(&mut self) {
        self.line("C 0");
    }

    /// Empties the lists too.
    pub fn start_lists(&mut self) {
        self.line("K 0");
    }

    /// Makes the file these bytes, by the shorter of two ways: from what it is, or from nothing.
    pub fn file(&mut self, wanted: &[u8]) {
        self.text += &of_a_file(&self.file, wanted);
        self.file = wanted.to_vec();
    }

    /// Makes the lists of levels and times these bytes, by the shorter of two ways: from what they are, or from
    /// cleared lists.
    pub fn lists(&mut self, levels: &[u8], times: &[u8]) {
        self.text += &of_lists([&self.levels, &self.times], [levels, times]);
        self.levels = levels.to_vec();
        self.times = times.to_vec();
    }

    /// The levels and the times as the vectors leave them.
    pub fn lists_left(&self) -> [Vec<u8>; 2] {
        [self.levels.clone(), self.times.clone()]
    }

    /// Makes a call of the sign. The lists are left as a report leaves them.
    pub fn sign_call(&mut self, call: &SignCall) {
        match call {
            SignCall::Report(code, brought) => {
                let Report { level, time } = brought;
                self.line(&format!("A {} {level} {time}", hex(code)));
                // The answer is the trial's to write; here the lists alone are wanted.
                let _ = report(
                    &self.file,
                    code,
                    *brought,
                    &mut self.levels,
                    &mut self.times,
                );
            }
            SignCall::Ask { code, now, limit } => {
                self.line(&format!("Q {} {now} {limit}", hex(code)));
            }
        }
    }

    /// The file as the vectors leave it.
    pub fn left(&self) -> &[u8] {
        &self.file
    }

    /// Makes the file so long, with bytes that count up from this one: none is like its
    /// neighbours, and few are zero.
    pub fn colour(&mut self, length: usize, first: u8) {
        let coloured: Vec<u8> = (0..length)
            .map(|place| first.wrapping_add(place as u8))
            .collect();
        if self.file == coloured {
            return;
        }
        if self.file.len() != length {
            self.line(&format!("C {length}"));
        }
        self.line(&format!("F {first}"));
        self.file = coloured;
    }

    /// Builds into the file, and gives back what the build answers. The file is left as the build
    /// leaves its buffer.
    pub fn build(&mut self, input: &Input) -> Result<Built, Refusal> {
        self.lend(input);
        self.line(&format!("B {} {} {}", input.r, input.v, input.room));
        self.file.resize(input.room, 0);
        input.build(&mut self.file)
    }

    /// Lends what is not lent already.
    fn lend(&mut self, input: &Input) {
        if self.run != input.run {
            self.run = input.run.clone();
            self.lend_run();
        }
        if self.ends != input.ends {
            self.ends = input.ends.clone();
            self.line(&numbers("E", &input.ends));
        }
        if self.weights != input.weights {
            self.weights = input.weights.clone();
            self.line(&numbers("W", &input.weights));
        }
    }

    /// The run; where it ends in many zeros, they go by their number.
    fn lend_run(&mut self) {
        let length = self.run.len();
        let zeros = self.run.iter().rev().take_while(|&&byte| byte == 0).count();
        let written = if zeros > MOST_OF_A_LINE {
            length - zeros
        } else {
            length
        };
        self.line(format!("R {}", hex(&self.run[..written])).trim_end());
        if written < length {
            self.line(&format!("Z {length}"));
        }
    }

    pub fn dump(&mut self) {
        self.line("D");
    }

    pub fn list(&mut self) {
        self.line("T");
    }

    pub fn open(&mut self) {
        self.line("O");
    }

    pub fn header(&mut self) {
        self.line("H");
    }

    pub fn lookup(&mut self, code: &[u8]) {
        self.line(format!("L {}", hex(code)).trim_end());
    }

    pub fn show(&mut self, line: u64) {
        self.line(&format!("S {line}"));
    }

    pub fn length(&mut self, n: u64, r: u64, v: u64) {
        self.line(&format!("N {n} {r} {v}"));
    }

    pub fn group(&mut self, number: u8) {
        self.line(&format!("G {number}"));
    }
}

/// A letter and numbers.
fn numbers(letter: &str, numbers: &[u16]) -> String {
    let mut line = letter.to_string();
    for number in numbers {
        line += &format!(" {number}");
    }
    line
}
