//! Document 01's cases, as far as they read a file, the readings' witnesses, and the lists that
//! pin what the cases leave open.

use super::inputs::{
    case_1_file, changed, diagonal, directory, length_place, strangers_file, CASE_1,
};
use super::script::Script;
use super::{read_all, HUGE_LINES};
use crate::header::Header;
use crate::sizes::{LONGEST_CODE, MARK_BYTES, NUMBER_BYTES};

/// The header of case 1's file.
const CASE_1_HEADER: Header = Header { n: 4, r: 2, v: 4 };

pub fn write(script: &mut Script) {
    worked_cases(script);
    longest_codes_and_largest_parts(script);
    lists_that_pin_more(script);
    strangers_files(script);
    what_lookup_passes_over(script);
    a_stored_length_that_differs(script);
    stored_threes(script);
    rank_entries_as_they_are(script);
    showing(script);
}

fn worked_cases(script: &mut Script) {
    script.comment("case 1, and the strangers of cases 2 and 3");
    read_all(script, &case_1_file(), &CASE_1);
    script.lookup(b"AA");
    script.lookup(b"DB");
    script.comment("case 4");
    read_all(script, &directory(&[b"BA"], 2, 4, &diagonal(2)), &[b"BA"]);
    script.lookup(b"CA");
    script.comment("case 9");
    read_all(script, &directory(&[], 2, 4, &diagonal(2)), &[b"AA"]);
    script.comment("case 10");
    read_all(script, &directory(&[b"BA"], 3, 1, &[0; 96]), &[b"BA"]);
    script.lookup(b"BB");
}

fn longest_codes_and_largest_parts(script: &mut Script) {
    script.comment("case 11: a code of 32 bytes, and 31 and 33 of them");
    let longer: Vec<u8> = (1..=33).map(|i| 7 * i).collect();
    let longest = &longer[..LONGEST_CODE];
    let file = directory(&[longest], 2, 4, &diagonal(2));
    read_all(script, &file, &[longest]);
    script.lookup(&longest[1..]);
    script.lookup(&longest[..LONGEST_CODE - 1]);
    script.lookup(&longer);
    script.comment("a stored length of 33 or 255, and 32 bytes that are the code's");
    for stored_length in [33, 255] {
        let place = length_place(&Header { n: 1, r: 2, v: 4 }, 0);
        let file = changed(&file, |file| file[place] = stored_length);
        read_all(script, &file, &[longest]);
    }
    for (r, v) in [(2, 2_048), (3, 1_365)] {
        script.comment(&format!("case 11: r = {r}, v = {v}"));
        let codes: [&[u8]; 2] = [b"BA", b"\xFF\xFE\xFD"];
        read_all(
            script,
            &directory(&codes, r as u64, v, &diagonal(r)),
            &codes,
        );
        script.lookup(b"AA");
        script.lookup(b"CB");
    }
}

fn lists_that_pin_more(script: &mut Script) {
    script.comment("r = 3, v = 5: the order j = 0, 1, .. decides the lines");
    let codes: [&[u8]; 5] = [b"CFF", b"BAE", b"CCD", b"BDF", b"FDE"];
    read_all(script, &directory(&codes, 3, 5, &diagonal(3)), &codes);
    script.comment("r = 3, v = 2: a code that would join twice in one step");
    let codes: [&[u8]; 3] = [b"BAA", b"AAA", b"BBB"];
    read_all(script, &directory(&codes, 3, 2, &diagonal(3)), &codes);
    script.comment("r = 2, v = 100: rank entries 0 1 2 2");
    let codes: [&[u8]; 2] = [b"\x0A\x05", b"\x5A\x06"];
    read_all(script, &directory(&codes, 2, 100, &diagonal(2)), &codes);
    script.comment("weights of 65,535 and 300, and v = 7");
    let weights = [vec![65_535; 32], vec![300; 32]].concat();
    let codes: [&[u8]; 2] = [&[255; 32], b"A"];
    read_all(script, &directory(&codes, 2, 7, &weights), &codes);
    script.comment("the largest sum, 534,765,600, with v = 2,047");
    let codes: [&[u8]; 2] = [&[255; 32], &[255; 31]];
    read_all(
        script,
        &directory(&codes, 2, 2_047, &[65_535; 64]),
        &[&codes[..], &[&[254; 32]]].concat(),
    );
    script.comment("codes with zero bytes, at their end too");
    let weights: Vec<u16> = (0..96).map(|i| 257 * i + 11).collect();
    let codes: [&[u8]; 4] = [b"\0", b"\x01\0", b"\0\x01", b"\x01\x02\0\0"];
    read_all(script, &directory(&codes, 3, 11, &weights), &codes);
    for stranger in [&b"\0\0"[..], b"\x01", b"\x01\x02", b"\x01\x02\0\0\0"] {
        script.lookup(stranger);
    }
}

fn strangers_files(script: &mut Script) {
    script.comment("reading 20: a stored code that lands on an unassigned vertex");
    let values = [2, 2, 2, 0, 2, 2, 2, 2];
    let file = strangers_file(2, 4, &diagonal(2), &values, &[b"BA"]);
    read_all(script, &file, &[b"BA"]);
    script.comment("reading 21: a stranger's file over a cyclic graph");
    let values = [0, 2, 1, 2, 2, 0, 1, 2];
    let codes: [&[u8]; 4] = [b"DA", b"BB", b"BA", b"DB"];
    let file = strangers_file(2, 4, &diagonal(2), &values, &codes);
    read_all(script, &file, &codes);
    script.lookup(b"BC");
    script.comment("case 1's file with DB in the place of BB, which leads to the same line");
    let stored = CASE_1_HEADER.key_record(2) + MARK_BYTES + 1;
    let file = changed(&case_1_file(), |file| file[stored] = b'D');
    read_all(script, &file, &[b"DB", b"BB"]);
    script.comment("more codes than vertices");
    let codes: [&[u8]; 3] = [b"A", b"B", b"C"];
    let file = strangers_file(2, 1, &diagonal(2), &[0, 0], &codes);
    read_all(script, &file, &codes);
}

fn what_lookup_passes_over(script: &mut Script) {
    script.comment("reading 22: lookup looks at no mark but the first, and at no filling");
    let h = CASE_1_HEADER;
    let marks = [
        h.weights_record(),
        h.values_record(),
        h.rank_record(),
        h.key_record(0),
        h.key_record(1),
    ];
    let file = changed(&case_1_file(), |file| {
        for mark in marks {
            file[mark] = b'?';
        }
        file[h.key_record(1) - 1] = 9;
    });
    read_all(script, &file, &CASE_1);
    script.lookup(b"AA");
}

fn a_stored_length_that_differs(script: &mut Script) {
    script.comment("reading 22: the stored length is compared first; 255 runs past the file");
    for stored_length in [0, 1, 3, 32, 33, 255] {
        let file = changed(&case_1_file(), |file| {
            file[length_place(&CASE_1_HEADER, 3)] = stored_length
        });
        script.file(&file);
        script.open();
        for code in [&b"BC"[..], b"B", b"BC\0"] {
            script.lookup(code);
        }
        script.show(3);
    }
    script.comment("a zero byte that is stored is no filling");
    let file = changed(&case_1_file(), |file| {
        file[length_place(&CASE_1_HEADER, 0)] = 3
    });
    read_all(script, &file, &[b"DA", b"DA\0"]);
}

/// Case 1's values are 88 5A; 8C has 3 at vertex 1 and 7A has 3 at vertex 6.
fn stored_threes(script: &mut Script) {
    script.comment("reading 22: a stored 3 at r = 2 adds 3 and counts as assigned");
    let values = CASE_1_HEADER.values_record() + MARK_BYTES;
    for (place, byte) in [(values, 0x8C), (values + 1, 0x7A)] {
        let file = changed(&case_1_file(), |file| file[place] = byte);
        read_all(script, &file, &CASE_1);
        script.lookup(b"AB");
    }
    script.comment("reading 22: no codes, but assigned values");
    let file = strangers_file(2, 4, &diagonal(2), &[0; 8], &[]);
    read_all(script, &file, &[b"AA", b"DA"]);
}

fn rank_entries_as_they_are(script: &mut Script) {
    script.comment("reading 23: 13 at lookup names the rank entry of the landing vertex");
    let codes: [&[u8]; 2] = [b"\x0A\x05", b"\x5A\x06"];
    let file = directory(&codes, 2, 100, &diagonal(2));
    let entries = Header { n: 2, r: 2, v: 100 }.rank_record() + MARK_BYTES;
    for (entry, number) in [(1, 2_u16), (1, 0xFFFF), (0, 2), (0, 0x0100), (1, 0)] {
        let place = entries + NUMBER_BYTES * entry;
        let damaged = changed(&file, |file| {
            file[place..place + NUMBER_BYTES].copy_from_slice(&number.to_le_bytes())
        });
        read_all(script, &damaged, &codes);
    }
    script.comment("reading 2: a rank entry of 65,535 plus 0 to 63 does not wrap");
    let bytes: Vec<[u8; 1]> = (0..64).map(|k| [k]).collect();
    let codes: Vec<&[u8]> = bytes.iter().map(|byte| &byte[..]).collect();
    let file = directory(&codes, 2, 100, &diagonal(2));
    read_all(script, &file, &codes);
    let entries = Header {
        n: 64,
        r: 2,
        v: 100,
    }
    .rank_record()
        + MARK_BYTES;
    script.file(&changed(&file, |file| {
        file[entries..entries + NUMBER_BYTES].fill(0xFF)
    }));
    script.open();
    for code in codes {
        script.lookup(code);
    }
}

fn showing(script: &mut Script) {
    script.comment("reading 24: showing looks at neither the KY mark nor the filling");
    let record = CASE_1_HEADER.key_record(0);
    for stored_length in [2, 0, 1, 32, 33, 255] {
        let file = changed(&case_1_file(), |file| {
            file[record] = b'?';
            file[length_place(&CASE_1_HEADER, 0)] = stored_length;
            file[CASE_1_HEADER.key_record(1) - 1] = 9;
        });
        script.file(&file);
        script.open();
        script.show(0);
        script.show(1);
    }
    script.comment("lines that there are not");
    script.file(&case_1_file());
    for line in [3, 4, 5, 255, 256, 65_535, 65_536]
        .into_iter()
        .chain(HUGE_LINES)
    {
        script.show(line);
    }
}
