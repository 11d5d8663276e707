//! The sizes at their edges: lengths of files, groups of refusal numbers, vertices on both sides of
//! a block's edge, and directories of the most codes.

use super::inputs::{built, changed, diagonal, directory};
use super::read_all;
use super::script::Script;
use crate::header::{checked_header, Header};
use crate::random::Random;
use crate::sizes::{BLOCK, MARK_BYTES, MOST_CODES, MOST_VERTICES, NUMBER_BYTES, WEIGHTS_OF_A_PART};
use crate::trial::LONGEST_FILE;

pub fn write(script: &mut Script, random: &mut Random) {
    groups(script);
    lengths(script);
    block_edges(script);
    spare_bits(script);
    most_codes(script, random);
}

fn groups(script: &mut Script) {
    script.comment("refusal numbers: their groups, and what their places mean");
    for number in (0..=40).chain([63, 64, 127, 128, 129, 200, 254, 255]) {
        script.group(number);
    }
}

/// The last three products of r and v are 2^64, 2^64 + 2 and 2^64 + 2 again: as 64 bits they would
/// be 0, 2 and 2.
fn lengths(script: &mut Script) {
    script.comment("lengths of files, inside the sizes and outside");
    for n in [0, 1, 4, 1_023, 1_024, 1_025, 65_536, u64::MAX] {
        for (r, v) in [(2, 4), (2, 2_048), (3, 1_365)] {
            script.length(n, r, v);
        }
    }
    for v in [
        1, 2, 3, 5, 21, 22, 31, 32, 33, 42, 43, 64, 65, 100, 1_366, 2_047, 2_049,
    ] {
        script.length(3, 2, v);
        script.length(3, 3, v);
    }
    for (r, v) in [
        (0, 4),
        (1, 4),
        (4, 4),
        (5, 1),
        (256 + 2, 4),
        (u64::MAX, 1),
        (2, 0),
        (3, 0),
    ] {
        script.length(4, r, v);
    }
    for (r, v) in [
        (2, 65_536 + 4),
        (2, u64::MAX),
        (3, u64::MAX),
        (2, 1 << 63),
        (2, (1 << 63) + 1),
        (3, 6_148_914_691_236_517_206),
    ] {
        script.length(4, r, v);
    }
}

/// With p(0,0) = 1 a code of one byte k has vertex k in part 0 and the first vertex of each other
/// part, so that it lands on vertex k.
fn block_edges(script: &mut Script) {
    for (r, v) in [
        (2, 31),
        (3, 21),
        (2, 32),
        (2, 33),
        (3, 22),
        (2, 63),
        (2, 64),
        (3, 43),
        (2, 65),
    ] {
        let m = r * v;
        script.comment(&format!("r = {r}, v = {v}: m = {m}"));
        let bytes: Vec<[u8; 1]> = (0..v as u8).rev().step_by(3).map(|k| [k]).collect();
        let codes: Vec<&[u8]> = bytes.iter().map(|byte| &byte[..]).collect();
        let file = directory(&codes, r as u64, v as u64, &diagonal(r));
        read_all(script, &file, &codes);
    }
    script.comment("codes that land on the vertices around 64 and 128, and on no others");
    let around = [62, 63, 64, 65, 127, 128, 129];
    let bytes = around.map(|k| [k]);
    let codes: Vec<&[u8]> = bytes.iter().map(|byte| &byte[..]).collect();
    let file = directory(&codes, 2, 130, &diagonal(2));
    read_all(script, &file, &codes);
    for vertex in [0, 61, 66, 126] {
        script.lookup(&[vertex]);
    }
    script.comment("the same with one rank entry wrong");
    let header = checked_header(&file).expect("a file that was built");
    for entry in 0..header.rank_entries() {
        let place = header.rank_record() + MARK_BYTES + NUMBER_BYTES * entry;
        script.file(&changed(&file, |file| file[place] ^= 1));
        script.open();
        for code in &codes {
            script.lookup(code);
        }
    }
}

/// No codes, so that every value is r; m mod 4 is 1, 2, 2, 3 and 0.
fn spare_bits(script: &mut Script) {
    for (r, v) in [(3, 3), (2, 3), (3, 2), (3, 1), (2, 2)] {
        script.comment(&format!(
            "every bit of the last values byte: r = {r}, v = {v}"
        ));
        let file = directory(&[], r as u64, v as u64, &diagonal(r));
        let last = Header { n: 0, r, v }.rank_record() - 1;
        for bit in 0..8 {
            script.file(&changed(&file, |file| file[last] ^= 1 << bit));
            script.open();
            script.lookup(b"A");
            script.lookup(b"BCD");
        }
    }
}

/// 1,024 codes under random weights that build, at both arities.
fn most_codes(script: &mut Script, random: &mut Random) {
    for r in [2, 3] {
        let v = MOST_VERTICES / r;
        let (codes, file) = many(r as u64, v as u64, random);
        script.comment(&format!("1,024 codes, r = {r}, v = {v}"));
        script.file(&file);
        script.open();
        script.header();
        for code in codes.iter().step_by(5) {
            script.lookup(code);
        }
        for line in (0..=MOST_CODES as u64 + 1)
            .step_by(7)
            .chain([1_022, 1_023, 1_024])
        {
            script.show(line);
        }
        damage_to_many(
            script,
            &file,
            Header {
                n: MOST_CODES,
                r,
                v,
            },
            &codes,
        );
    }
}

fn many(r: u64, v: u64, random: &mut Random) -> (Vec<Vec<u8>>, Vec<u8>) {
    loop {
        let codes: Vec<Vec<u8>> = (0..MOST_CODES)
            .map(|k| vec![(k / 256) as u8, random.byte(), (k % 256) as u8])
            .collect();
        let weights: Vec<u16> = (0..WEIGHTS_OF_A_PART as u64 * r)
            .map(|_| random.below(65_536) as u16)
            .collect();
        if let Some(file) = built(&codes, r, v, &weights) {
            return (codes, file);
        }
    }
}

/// The last places of each kind in a file of the most codes.
fn damage_to_many(script: &mut Script, file: &[u8], header: Header, codes: &[Vec<u8>]) {
    script.comment("the last places of such a file");
    let last_record = header.key_record(header.n - 1);
    let places = [
        last_record + 1,
        header.rank_record() - 1,
        header.key_record(0) - 1,
        file.len() - 1,
        last_record + 3,
    ];
    for place in places {
        script.file(&changed(file, |file| file[place] ^= 0x41));
        script.open();
        script.lookup(&codes[BLOCK]);
        script.show(header.n as u64 - 1);
    }
    for length in [file.len() - 1, file.len() + 1, LONGEST_FILE] {
        script.file(&changed(file, |file| file.resize(length, 0)));
        script.open();
        script.lookup(&codes[0]);
    }
}
