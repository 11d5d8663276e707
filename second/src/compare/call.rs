//! One call with all that it is lent: what a program gives, and the call written as vectors, so that it can be
//! repeated.

use super::calls::{Calls, DsAnswer, DsAsked, DsCounted, DsFound, DsOpened, DsPart, DsReported};
use crate::vectors::inputs::Input;
use crate::vectors::script::Script;
use crate::vectors::traces::SignCall;

/// The levels and the times of a sign.
pub type Lists = [Vec<u8>; 2];

/// A call. The buffer of a build and the lists of a sign are lent with these bytes in them.
pub enum Call<'a> {
    Length {
        n: usize,
        r: usize,
        v: usize,
    },
    Build {
        input: &'a Input,
        buffer: &'a [u8],
    },
    BuildCounted {
        input: &'a Input,
        buffer: &'a [u8],
    },
    Open {
        file: &'a [u8],
    },
    Lookup {
        file: &'a [u8],
        code: &'a [u8],
    },
    Show {
        file: &'a [u8],
        line: usize,
    },
    Sign {
        file: &'a [u8],
        call: &'a SignCall,
        lists: &'a Lists,
    },
}

/// What a call gives: every number of its answer, and every byte of the buffer or of the lists.
#[derive(Debug, PartialEq, Eq)]
pub enum Given {
    Length(usize),
    Built(DsAnswer, Vec<u8>),
    Counted(DsCounted, Vec<u8>),
    Opened(DsOpened),
    Found(DsFound),
    Part(DsPart),
    Reported(DsReported, Lists),
    Asked(DsAsked, Lists),
}

impl Call<'_> {
    /// What a program gives.
    pub fn given_by(&self, program: &dyn Calls) -> Given {
        match *self {
            Call::Length { n, r, v } => Given::Length(program.length(n, r, v)),
            Call::Build { input, buffer } => {
                let mut buffer = buffer.to_vec();
                let (r, v) = (input.r as usize, input.v as usize);
                let answer = program.build(&input.list(), r, v, &input.weights, &mut buffer);
                Given::Built(answer, buffer)
            }
            Call::BuildCounted { input, buffer } => {
                let mut buffer = buffer.to_vec();
                let (r, v) = (input.r as usize, input.v as usize);
                let answer =
                    program.build_counted(&input.list(), r, v, &input.weights, &mut buffer);
                Given::Counted(answer, buffer)
            }
            Call::Open { file } => Given::Opened(program.open(file)),
            Call::Lookup { file, code } => Given::Found(program.lookup(file, code)),
            Call::Show { file, line } => Given::Part(program.show(file, line)),
            Call::Sign { file, call, lists } => given_by_sign(program, file, call, lists.clone()),
        }
    }

    /// The call as vectors, which `second trial` answers.
    pub fn vectors(&self) -> String {
        let mut script = Script::default();
        match *self {
            Call::Length { n, r, v } => script.length(n as u64, r as u64, v as u64),
            Call::Build { input, buffer } | Call::BuildCounted { input, buffer } => {
                script.file(buffer);
                // What the second program answers, the vectors say too.
                let _ = script.build(input);
            }
            Call::Open { file } => {
                script.file(file);
                script.open();
            }
            Call::Lookup { file, code } => {
                script.file(file);
                script.lookup(code);
            }
            Call::Show { file, line } => {
                script.file(file);
                script.show(line as u64);
            }
            Call::Sign { file, call, lists } => {
                script.file(file);
                script.lists(&lists[0], &lists[1]);
                script.sign_call(call);
            }
        }
        script.text()
    }
}

/// What a program gives to a call of the sign, with the lists as it leaves them.
fn given_by_sign(program: &dyn Calls, file: &[u8], call: &SignCall, mut lists: Lists) -> Given {
    let [levels, times] = &mut lists;
    match call {
        SignCall::Report(code, report) => {
            let answer = program.report(file, code, *report, levels, times);
            Given::Reported(answer, lists)
        }
        SignCall::Ask { code, now, limit } => {
            let answer = program.ask(file, code, *now, *limit, levels, times);
            Given::Asked(answer, lists)
        }
    }
}

impl Given {
    /// The answer in words; of a buffer and of lists, the first byte that is not the other's.
    pub fn words(&self, other: &Given) -> String {
        match (self, other) {
            (Given::Built(answer, buffer), Given::Built(_, others)) => {
                format!("{answer:?}, {}", difference("the buffer", buffer, others))
            }
            (Given::Counted(answer, buffer), Given::Counted(_, others)) => {
                format!("{answer:?}, {}", difference("the buffer", buffer, others))
            }
            (Given::Reported(answer, lists), Given::Reported(_, others)) => {
                format!("{answer:?}, {}", differences(lists, others))
            }
            (Given::Asked(answer, lists), Given::Asked(_, others)) => {
                format!("{answer:?}, {}", differences(lists, others))
            }
            _ => format!("{self:?}"),
        }
    }
}

fn differences([levels, times]: &Lists, [other_levels, other_times]: &Lists) -> String {
    [
        difference("the levels", levels, other_levels),
        difference("the times", times, other_times),
    ]
    .join(", ")
}

/// The first byte that is not the other's.
fn difference(what: &str, bytes: &[u8], others: &[u8]) -> String {
    let differs = (0..bytes.len()).find(|&place| bytes[place] != others[place]);
    match differs {
        Some(place) => format!("byte {place} of {what} {:02x}", bytes[place]),
        None => format!("{what} equal"),
    }
}
