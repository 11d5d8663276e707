//! The vectors that have a name, as calls: document 01's cases, the witnesses, each refusal at its first and last
//! place, each two of them at once, the largest sizes.

use super::call::{Call, Given};
use super::Comparison;
use crate::text::decimal;
use crate::trial::{bytes_asked, change, resize, signs::call, Held};
use crate::vectors::inputs::Input;
use crate::vectors::{builds, signs, vectors};

pub fn compare(comparison: &mut Comparison, seed: u64) -> Result<(), String> {
    let mut held = Held::default();
    let named = [vectors(seed, 0), builds(seed, 0), signs(seed, 0)];
    for line in named.concat().lines() {
        vector(comparison, line, &mut held)
            .unwrap_or_else(|| Err(format!("this is no vector: `{line}`")))?;
    }
    Ok(())
}

/// Makes the call of a vector, or does to what is held as it says; nothing where it is no vector.
fn vector(comparison: &mut Comparison, line: &str, held: &mut Held) -> Option<Result<(), String>> {
    let words: Vec<&[u8]> = line.as_bytes().split(|&byte| byte == b' ').collect();
    let (&letter, fields) = words.split_first()?;
    let file = &held.file;
    let asked = match (letter, fields) {
        // Words, and what is not a call of the library: headers alone, listings, bytes and groups.
        (b"#" | b"H" | b"T" | b"D" | b"G", _) => return Some(Ok(())),
        (b"B", [r, v, length]) => return build(comparison, held, [r, v, length]),
        (b"A" | b"Q", fields) => return sign(comparison, held, letter, fields),
        (b"O", []) => comparison.ask(&Call::Open { file }),
        (b"L", code) => {
            let code = &bytes_asked(code)?;
            comparison.ask(&Call::Lookup { file, code })
        }
        (b"S", [line]) => {
            let line = number(line)?;
            comparison.ask(&Call::Show { file, line })
        }
        (b"N", [n, r, v]) => {
            let (n, r, v) = (number(n)?, number(r)?, number(v)?);
            comparison.ask(&Call::Length { n, r, v })
        }
        _ => return change(letter, fields, held).map(Ok),
    };
    Some(asked.map(|_| ()))
}

/// Builds by both calls in the file that is held, as long as the vector says.
fn build(
    comparison: &mut Comparison,
    held: &mut Held,
    [r, v, length]: [&[u8]; 3],
) -> Option<Result<(), String>> {
    resize(&mut held.file, length)?;
    let input = Input {
        run: held.run.clone(),
        ends: held.ends.clone(),
        r: decimal(r)?,
        v: decimal(v)?,
        weights: held.weights.clone(),
        room: held.file.len(),
    };
    let (input, buffer) = (&input, &held.file[..]);
    let counted = comparison.ask(&Call::BuildCounted { input, buffer });
    let asked = counted.and_then(|_| comparison.ask(&Call::Build { input, buffer }));
    Some(asked.map(|given| {
        if let Given::Built(_, buffer) = given {
            held.file = buffer;
        }
    }))
}

/// Makes a call of the sign with the lists that are held.
fn sign(
    comparison: &mut Comparison,
    held: &mut Held,
    letter: &[u8],
    fields: &[&[u8]],
) -> Option<Result<(), String>> {
    let asked = comparison.ask(&Call::Sign {
        file: &held.file,
        call: &call(letter, fields)?,
        lists: &[held.levels.clone(), held.times.clone()],
    });
    Some(asked.map(|given| {
        if let Given::Reported(_, lists) = given {
            [held.levels, held.times] = lists;
        }
    }))
}

fn number(digits: &[u8]) -> Option<usize> {
    decimal(digits).map(|number| number as usize)
}
