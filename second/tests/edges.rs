//! The largest sizes, the bytes after a file, and calls on damaged and on any bytes. Expected
//! values are worked out by hand beside each test.

mod common;

use common::{
    built, case_1, case_1_file, coloured, directory, lent, many_codes, refusal, star_weights,
    Input, CASE_1, GV, WT,
};
use second::text::run_and_ends;
use second::{length, lookup, open, show, CodeList, Found, Header};

#[test]
fn a_build_leaves_the_bytes_after_the_file() {
    let mut input = case_1();
    input.buffer = coloured(500);
    assert_eq!(input.build(), built(3));
    assert_eq!(input.buffer[..285], case_1_file());
    assert_eq!(input.buffer[285..], coloured(500)[285..]);
}

/// The document's formula, typed once more, for every allowed r and v.
#[test]
fn the_length_formula() {
    for (r, largest) in [(2, 2_048), (3, 1_365)] {
        for v in 1..=largest {
            let m: u64 = r * v;
            for n in [0, 1, 1_024] {
                let expected = 13 + 64 * r + m.div_ceil(4) + 2 * m.div_ceil(64) + 35 * n;
                assert_eq!(length(n, r, v), Some(expected as usize));
            }
        }
    }
    assert_eq!(length(1_024, 3, 1_365), Some(37_197));
    assert_eq!(length(1_025, 3, 1_365), None);
    assert_eq!(length(0, 4, 1), None);
    assert_eq!(length(0, 2, 0), None);
}

/// 1,024 codes, each with a vertex of its own in part 0 and the rest shared. All 1,024 wait from the
/// start and are removed in list order. By hand, from the end: the last code finds nothing visited
/// and gives its vertex 0; every other one adds r for each shared vertex, which is 0 mod r, and
/// gives its own vertex 0 too. So code k lands on vertex k and has line k, and rank entry b is
/// 64·b up to 1,024. The file lengths are 13 + 128 + 1,024 + 128 + 35,840 and, for r = 3, the
/// document's largest. n = 1,024 and v are stored low byte first.
#[test]
fn the_most_codes() {
    let codes = many_codes(1_024);
    for (r, v, file_length) in [(2_usize, 2_048_usize, 37_133), (3, 1_365, 37_197)] {
        let mut input = Input::new(&lent(&codes), r as u64, v as u64, &star_weights(r));
        assert_eq!(input.build(), built(1_024));
        let file = input.buffer;
        assert_eq!(file.len(), file_length);
        assert_eq!(file[2..7], [0, 4, r as u8, v as u8, (v / 256) as u8]);
        assert_eq!(file[9..13], [0, 1, 1, 0], "the weights 256 and 1");
        assert_eq!(open(&file), Ok(Header { n: 1_024, r, v }));
        for (k, code) in codes.iter().enumerate() {
            assert_eq!(lookup(&file, code), Found::At(k));
            assert_eq!(show(&file, k as u64).of(&file), code);
        }
        let rank = file_length - 35 * 1_024 - 128;
        for b in 0..64 {
            let entry = [file[rank + 2 * b], file[rank + 2 * b + 1]];
            assert_eq!(usize::from(u16::from_le_bytes(entry)), (64 * b).min(1_024));
        }
    }
}

/// v = 7 and weights of 65,535 and 300, which are 1 and 6 mod 7. By hand: 32 bytes of 255 (4 times
/// 3, so 5 mod 7) have the residues 5·1 = 5 and 5·6 = 30, which is 2. `A` is 65, so 2 mod 7, with
/// the residues 2·1 = 2 and 2·6 = 12, which is 5. So the vertices are (5, 7 + 2) and (2, 7 + 5);
/// both codes are alone on theirs, the vertices 2 and 5 get 0, and `A` has line 0. The values are
/// 2 2 0 2, 2 0 2 2, 2 2 2 2, 2 2 and spare bits: 8A A2 AA 0A.
#[test]
fn weights_over_1_and_a_part_size_that_is_no_power_of_two() {
    let mut weights = vec![65_535; 32];
    weights.extend_from_slice(&[300; 32]);
    let longest: &[u8] = &[255; 32];
    let file = directory(&[longest, b"A"], 2, 7, &weights);
    assert_eq!(file[GV..GV + 6], *b"GV\x8A\xA2\xAA\x0A");
    assert_eq!(file[WT + 2 + 64..WT + 2 + 66], [0x2C, 0x01], "300");
    assert_eq!(lookup(&file, b"A"), Found::At(0));
    assert_eq!(lookup(&file, longest), Found::At(1));
}

/// Whatever single bit of case 1's file is flipped, every call comes back, and a file that still
/// opens still leads each of its stored codes to its line.
#[test]
fn every_flipped_bit_comes_back() {
    let file = case_1_file();
    for bit in 0..8 * file.len() {
        let mut damaged = file.clone();
        damaged[bit / 8] ^= 1 << (bit % 8);
        for code in CASE_1 {
            lookup(&damaged, code);
        }
        match open(&damaged) {
            Ok(header) => {
                for line in 0..header.n {
                    let code = show(&damaged, line as u64).of(&damaged);
                    assert_eq!(lookup(&damaged, code), Found::At(line));
                }
            }
            Err(refusal) => assert!((9..=15).contains(&refusal.number)),
        }
    }
}

/// Bytes of every kind behind a header that is allowed: lookup and showing come back.
#[test]
fn any_bytes_come_back() {
    for (n, r, v) in [(0, 2, 1), (9, 2, 100), (300, 3, 77), (1_024, 3, 1_365)] {
        for byte in [0x00, 0x55, 0x6C, 0xAA, 0xE4, 0xFF] {
            let mut file = vec![byte; length(n, r, v).expect("allowed numbers")];
            file[..2].copy_from_slice(b"HD");
            file[2..4].copy_from_slice(&(n as u16).to_le_bytes());
            file[4] = r as u8;
            file[5..7].copy_from_slice(&(v as u16).to_le_bytes());
            for code in [&b"A"[..], b"BA", &[byte; 32], &[255; 31]] {
                lookup(&file, code);
            }
            for line in [0, n.saturating_sub(1), n, u64::MAX] {
                assert!(show(&file, line).of(&file).len() <= 32);
            }
            assert_eq!(open(&file), Err(refusal(10, 7)));
        }
    }
}

/// Case 1's list as it is lent: one run, and the end of each two-byte code.
#[test]
fn a_run_and_its_ends() {
    let (run, ends) = run_and_ends(&CASE_1.map(<[u8]>::to_vec));
    assert_eq!(run, b"BABBDABC");
    assert_eq!(ends, [2, 4, 6, 8]);
    let list = CodeList {
        run: &run,
        ends: &ends,
    };
    assert_eq!(list.codes(), Ok(CASE_1.to_vec()));
}
