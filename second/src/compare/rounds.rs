//! A round of random calls: a length, a build, and around the file that it leaves, or around a stranger's, every call
//! of reading and of the sign, with the file as it is, damaged, and with other lengths.

use super::call::{Call, Given};
use super::calls::DsAnswer;
use super::{files, lists, signs, Comparison};
use crate::header::{checked_header, Header};
use crate::random::Random;
use crate::sizes::LONGEST_CODE;
use crate::vectors::inputs::{changed, owned};
use crate::vectors::lists::{code, strangers, strangers_list};
use crate::vectors::HUGE_LINES;

/// The most listed codes that are looked up in one file, and the most lines that are shown.
const MOST_CODES_ASKED: usize = 12;
const MOST_LINES_SHOWN: usize = 6;
/// The most bytes of a code that is too long.
const LONGEST_ASKED: usize = 300;

/// Numbers that are sizes, stand beside them, or would be sizes if they were cut to fewer bits.
const NUMBERS: [usize; 16] = [
    0,
    1,
    2,
    3,
    4,
    100,
    1_023,
    1_024,
    1_025,
    1_365,
    1_366,
    2_048,
    2_049,
    65_536 + 2,
    (1 << 32) + 3,
    usize::MAX,
];

pub fn compare(comparison: &mut Comparison, random: &mut Random) -> Result<(), String> {
    let (n, r, v) = (
        random.one_of(&NUMBERS),
        random.index(5),
        random.one_of(&NUMBERS),
    );
    comparison.ask(&Call::Length { n, r, v })?;
    match random.below(12) {
        0 => {
            let (codes, file) = strangers_list(random);
            around(comparison, random, &file, &codes)
        }
        1 => {
            let (header, file) = files::any_bytes(random);
            let codes: Vec<Vec<u8>> = (0..=header.n).map(|_| code(random)).collect();
            around(comparison, random, &file, &codes)
        }
        _ => build(comparison, random),
    }
}

/// Builds a list by both calls in a buffer whose bytes count up, and reads what is built.
fn build(comparison: &mut Comparison, random: &mut Random) -> Result<(), String> {
    let input = lists::input(random);
    let first = random.index(256);
    let buffer: Vec<u8> = (0..input.room).map(|place| (first + place) as u8).collect();
    let (input, buffer) = (&input, &buffer[..]);
    comparison.ask(&Call::BuildCounted { input, buffer })?;
    let given = comparison.ask(&Call::Build { input, buffer })?;
    let Given::Built(DsAnswer { number: 0, .. }, buffer) = given else {
        return Ok(());
    };
    let needed = input.needed().expect("sizes that are allowed");
    let codes = input.list().codes().expect("a list that is allowed");
    around(comparison, random, &buffer[..needed], &owned(&codes))
}

/// Reads a file as it is, and its copies.
fn around(
    comparison: &mut Comparison,
    random: &mut Random,
    file: &[u8],
    codes: &[Vec<u8>],
) -> Result<(), String> {
    let header = checked_header(file).expect("a header that is right");
    let none = [b"BA".to_vec()];
    let listed = if codes.is_empty() { &none } else { codes };
    comparison.ask(&Call::Open { file })?;
    look_up(comparison, random, file, listed)?;
    show(comparison, random, file, &header)?;
    let some_listed = some(listed, MOST_CODES_ASKED, random);
    signs::trace(comparison, random, file, &header, &some_listed)?;
    signs::single_calls(comparison, random, file, &header, &some_listed)?;
    for copy in files::copies(file, &header, random) {
        read(comparison, random, &copy, &header, listed)?;
        signs::single_calls(comparison, random, &copy, &header, &some_listed)?;
    }
    Ok(())
}

/// Looks up listed codes, strangers, an empty code and one that is too long.
fn look_up(
    comparison: &mut Comparison,
    random: &mut Random,
    file: &[u8],
    listed: &[Vec<u8>],
) -> Result<(), String> {
    let lent: Vec<&[u8]> = listed.iter().map(|code| &code[..]).collect();
    let mut asked = strangers(&lent, random);
    asked.extend(some(listed, MOST_CODES_ASKED, random));
    asked.push(Vec::new());
    let too_long = LONGEST_CODE + 1 + random.index(LONGEST_ASKED - LONGEST_CODE);
    asked.push(changed(lent[0], |code| code.resize(too_long, 0)));
    for code in &asked {
        comparison.ask(&Call::Lookup { file, code })?;
    }
    Ok(())
}

/// Shows lines, some past the last.
fn show(
    comparison: &mut Comparison,
    random: &mut Random,
    file: &[u8],
    header: &Header,
) -> Result<(), String> {
    let lines: Vec<usize> = (0..header.n).collect();
    let mut shown = some(&lines, MOST_LINES_SHOWN, random);
    shown.extend([header.n, header.n + 1, random.one_of(&HUGE_LINES) as usize]);
    for line in shown {
        comparison.ask(&Call::Show { file, line })?;
    }
    Ok(())
}

/// All of some things where they are few, otherwise a choice of them.
fn some<T: Clone>(things: &[T], most: usize, random: &mut Random) -> Vec<T> {
    if things.len() <= most {
        return things.to_vec();
    }
    (0..most)
        .map(|_| things[random.index(things.len())].clone())
        .collect()
}

/// Every call of reading, with two listed codes, a stranger and a line.
fn read(
    comparison: &mut Comparison,
    random: &mut Random,
    file: &[u8],
    header: &Header,
    listed: &[Vec<u8>],
) -> Result<(), String> {
    comparison.ask(&Call::Open { file })?;
    let one = &listed[random.index(listed.len())];
    let other = &listed[random.index(listed.len())];
    for code in [one, other, &code(random)] {
        comparison.ask(&Call::Lookup { file, code })?;
    }
    let line = random.index(header.n + 1);
    comparison.ask(&Call::Show { file, line })?;
    Ok(())
}
