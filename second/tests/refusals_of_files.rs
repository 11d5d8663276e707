//! The refusals 9 to 16, each at its first and its last place. Expected numbers and places follow
//! from document 01's table of refusals and from offsets counted by hand.

mod common;

use common::{
    assert_opens_to, case_1_file, diagonal, directory, refusal, GV, KY, KY_BYTES, RK, WT,
};
use second::{list, lookup, open, Found, Header};

#[test]
fn refusal_9_every_other_length() {
    let file = case_1_file();
    for short in 0..file.len() {
        assert_eq!(open(&file[..short]), Err(refusal(9, 0)));
    }
    assert_opens_to(|file| file.push(0), Err(refusal(9, 0)));
    assert_opens_to(|file| file.resize(100_000, 0), Err(refusal(9, 0)));
}

#[test]
fn refusal_10_first_and_last_mark() {
    for place in [0, WT, GV, RK, KY, KY + 3 * KY_BYTES] {
        assert_opens_to(|file| file[place + 1] = b'?', Err(refusal(10, place)));
    }
    assert_opens_to(
        |file| {
            file[KY] = b'?';
            file[RK] = b'?';
        },
        Err(refusal(10, RK)),
    );
}

/// n stands at 2, r at 4 and v at 5. 1,025 is 01 04 and 2,049 is 01 08, low byte first.
#[test]
fn refusal_11_header_numbers() {
    for r in [0, 1, 4, 255] {
        assert_opens_to(|file| file[4] = r, Err(refusal(11, 0)));
    }
    let numbers: [(usize, [u8; 2]); 5] = [
        (2, [0x01, 0x04]),
        (2, [0xFF, 0xFF]),
        (5, [0x00, 0x00]),
        (5, [0x01, 0x08]),
        (5, [0xFF, 0xFF]),
    ];
    for (offset, number) in numbers {
        assert_opens_to(
            |file| file[offset..offset + 2].copy_from_slice(&number),
            Err(refusal(11, 0)),
        );
    }
}

/// The largest numbers that are allowed: only the length is then wrong. 1,024 is 00 04, 2,048 is
/// 00 08 and 1,365 is 55 05; with r = 3 the next v, 1,366, is 56 05.
#[test]
fn refusal_11_the_other_side() {
    let allowed = refusal(9, 0);
    assert_opens_to(|file| file[2..4].copy_from_slice(&[0, 4]), Err(allowed));
    assert_opens_to(|file| file[5..7].copy_from_slice(&[0, 8]), Err(allowed));
    for (low_byte, expected) in [(0x55, allowed), (0x56, refusal(11, 0))] {
        assert_opens_to(
            |file| file[4..7].copy_from_slice(&[3, low_byte, 5]),
            Err(expected),
        );
    }
}

/// m = 2 and n = 3: the header is allowed, but no file can have 3 assigned vertices of 2. By hand:
/// r = 2, v = 1, GV byte 00 (both assigned), rank entry 0; one entry, so the place is 1.
#[test]
fn more_codes_than_vertices_is_not_refusal_11() {
    let mut file = directory(&[], 2, 1, &diagonal(2));
    file[2] = 3;
    file[GV + 2] = 0;
    for code in [b"A", b"B", b"C"] {
        file.extend_from_slice(b"KY\x01");
        file.extend_from_slice(code);
        file.extend_from_slice(&[0; 31]);
    }
    assert_eq!(open(&file), Err(refusal(13, 1)));
}

/// Case 1's GV bytes are 88 5A. 8B has 3 at vertex 0, DA has 3 at vertex 7.
#[test]
fn refusal_12_first_and_last_vertex() {
    assert_opens_to(|file| file[GV + 2] = 0x8B, Err(refusal(12, 0)));
    assert_opens_to(|file| file[GV + 3] = 0xDA, Err(refusal(12, 7)));
    assert_opens_to(
        |file| {
            file[GV + 2] = 0x8C;
            file[GV + 3] = 0xDA;
        },
        Err(refusal(12, 1)),
    );
}

/// Directories of no codes with m = 9, 6, 10 and 3: m mod 4 is 1, 2, 2 and 3. Every value is r, so
/// the last GV byte is by hand 03 (one 3), 0A (two 2), 0A (two 2) and 3F (three 3).
#[test]
fn refusal_12_every_spare_bit() {
    for (r, v, last_byte) in [(3, 3, 0x03), (2, 3, 0x0A), (2, 5, 0x0A), (3, 1, 0x3F)] {
        let m = r * v;
        let file = directory(&[], r as u64, v as u64, &diagonal(r));
        let last = 7 + 2 + 64 * r + 2 + m / 4;
        assert_eq!(file[last], last_byte);
        assert_eq!(open(&file), Ok(Header { n: 0, r, v }));
        for spare_bit in 2 * (m % 4)..8 {
            let mut damaged = file.clone();
            damaged[last] |= 1 << spare_bit;
            assert_eq!(open(&damaged), Err(refusal(12, m)));
        }
    }
}

/// r = 2, v = 100, codes 0A05 and 5A06: rank entries 0 1 2 2 from 137 + 2 + 50 + 2 = 191 on, and
/// the vertices 10 and 90 assigned. Vertex 199 is the highest pair of bits of GV byte 49, at
/// 139 + 49 = 188; assigning it changes the total alone.
#[test]
fn refusal_13_first_and_last_place() {
    let file = directory(&[b"\x0A\x05", b"\x5A\x06"], 2, 100, &diagonal(2));
    for b in 0..4 {
        for offset in [191 + 2 * b, 192 + 2 * b] {
            let mut damaged = file.clone();
            damaged[offset] ^= 0x04;
            assert_eq!(open(&damaged), Err(refusal(13, b)));
        }
    }
    let mut too_many = file;
    assert_eq!(too_many[188], 0xAA);
    too_many[188] = 0x2A;
    assert_eq!(open(&too_many), Err(refusal(13, 4)));
}

/// Case 1 with vertex 7 unassigned (GV 88 9A): three assigned vertices, and one rank entry.
#[test]
fn refusal_13_too_few_assigned() {
    assert_opens_to(|file| file[GV + 3] = 0x9A, Err(refusal(13, 1)));
}

#[test]
fn refusal_14_first_and_last_line() {
    for line in [0, 3] {
        let record = KY + KY_BYTES * line;
        for stored_length in [0, 1, 33, 255] {
            assert_opens_to(
                |file| file[record + 2] = stored_length,
                Err(refusal(14, line)),
            );
        }
        for filling in [record + 5, record + 34] {
            assert_opens_to(|file| file[filling] = 1, Err(refusal(14, line)));
        }
    }
    assert_opens_to(
        |file| {
            file[KY + 2 * KY_BYTES + 34] = 1;
            file[KY + KY_BYTES + 2] = 0;
        },
        Err(refusal(14, 1)),
    );
}

/// A stored length of 3 makes line 0 the code DA and a zero byte. Its sums are DA's, so it leads
/// to line 0 and the file opens; DA itself is then a stranger.
#[test]
fn a_stored_zero_byte_is_no_filling() {
    let mut file = case_1_file();
    file[KY + 2] = 3;
    assert_eq!(open(&file), Ok(Header { n: 4, r: 2, v: 4 }));
    assert_eq!(list(&file), b"0 444100\n1 4241\n2 4242\n3 4243\n");
    assert_eq!(lookup(&file, b"DA\0"), Found::At(0));
    assert_eq!(lookup(&file, b"DA"), Found::Unknown);
}

/// AA lands on an unassigned vertex (case 2); BB leads to line 2 wherever it is stored; DB leads
/// to line 2 (case 3), so that it may even stand there.
#[test]
fn refusal_15_first_and_last_line() {
    let store = |file: &mut Vec<u8>, line: usize, code: &[u8; 2]| {
        file[KY + KY_BYTES * line + 3..KY + KY_BYTES * line + 5].copy_from_slice(code);
    };
    for line in 0..4 {
        assert_opens_to(|file| store(file, line, b"AA"), Err(refusal(15, line)));
    }
    for line in [0, 1, 3] {
        assert_opens_to(|file| store(file, line, b"BB"), Err(refusal(15, line)));
    }
    assert_opens_to(
        |file| store(file, 2, b"DB"),
        Ok(Header { n: 4, r: 2, v: 4 }),
    );
    assert_opens_to(
        |file| {
            store(file, 1, b"BB");
            store(file, 2, b"BA");
        },
        Err(refusal(15, 1)),
    );
}

#[test]
fn refusal_16_code_asked_for() {
    let file = case_1_file();
    for code_length in [0, 33, 34, 256 + 2, 65_536 + 2] {
        let code = vec![b'B'; code_length];
        assert_eq!(lookup(&file, &code), Found::Refused(refusal(16, 0)));
    }
    for code_length in [1, 32] {
        assert_eq!(lookup(&file, &vec![b'A'; code_length]), Found::Unknown);
    }
}
