//! The witnesses and readings of the project's list of readings, by their numbers, and the
//! vectors for what document 01's cases do not pin. Expected values are typed from there or
//! worked out by hand beside each test; none is taken from the program.

mod common;

use common::{case_1_file, coloured, diagonal, directory, refusal, Input, GV, KY, KY_BYTES, RK};
use second::graph::peel;
use second::table::{rank_entries, values};
use second::vertices::vertices;
use second::{list, lookup, open, show, Found, Header, Part};

/// A file with r = 2, v = 4 and case 1's weights, written out by hand.
fn stranger(value_bytes: [u8; 2], stored: &[&[u8; 2]]) -> Vec<u8> {
    let mut file = vec![b'H', b'D', stored.len() as u8, 0, 2, 4, 0];
    file.extend_from_slice(b"WT");
    for weight in diagonal(2) {
        file.extend_from_slice(&weight.to_le_bytes());
    }
    file.extend_from_slice(b"GV");
    file.extend_from_slice(&value_bytes);
    file.extend_from_slice(b"RK\x00\x00");
    for code in stored {
        file.extend_from_slice(b"KY\x02");
        file.extend_from_slice(*code);
        file.extend_from_slice(&[0; 30]);
    }
    file
}

fn vertices_of(codes: &[&[u8]], r: usize, v: usize) -> Vec<Vec<usize>> {
    codes
        .iter()
        .map(|code| vertices(code, &diagonal(r), r, v))
        .collect()
}

fn lines(file: &[u8], codes: &[&[u8]]) -> Vec<Found> {
    codes.iter().map(|code| lookup(file, code)).collect()
}

fn at(lines: &[usize]) -> Vec<Found> {
    lines.iter().map(|&line| Found::At(line)).collect()
}

fn refusal_5(run: &[u8], ends: &[u16]) -> usize {
    let mut input = Input::new(&[], 2, 4, &diagonal(2));
    input.run = run.to_vec();
    input.ends = ends.to_vec();
    input.buffer = coloured(40_000);
    let refusal = input.build().expect_err("the list should be refused");
    assert_eq!(refusal.number, 5);
    refusal.place
}

#[test]
fn reading_9_the_place_of_refusal_5() {
    assert_eq!(refusal_5(b"BABB", &[2, 1]), 1, "an end falls");
    assert_eq!(refusal_5(b"BABB", &[2, 2, 4]), 1, "a code is empty");
    assert_eq!(refusal_5(b"BABB", &[0, 4]), 0, "the first code is empty");
    assert_eq!(refusal_5(b"BABB", &[2, 5]), 1, "an end passes the run");
    assert_eq!(refusal_5(&[b'B'; 35], &[2, 35]), 1, "a code of 33 bytes");
    assert_eq!(refusal_5(b"BABB", &[2, 3]), 2, "only the last end misses");
    assert_eq!(refusal_5(b"B", &[]), 0, "no codes, but a run");
    assert_eq!(
        refusal_5(b"BABB", &[9, 1, 3]),
        0,
        "the lowest of several faults"
    );
    assert_eq!(
        refusal_5(b"BABB", &[2, 1, 3]),
        1,
        "a code's fault before the last end"
    );
}

/// 65,538 bytes would be 2 in two bytes, and 65,536 bytes would be 0.
#[test]
fn reading_10_a_run_that_two_bytes_cannot_reach() {
    assert_eq!(refusal_5(&vec![b'B'; 65_538], &[2]), 1);
    assert_eq!(refusal_5(&vec![b'B'; 65_536], &[]), 0);
    assert_eq!(refusal_5(&vec![b'B'; 65_536], &[32, 65_535]), 1);
}

/// Two vertices, three codes: every code names both.
#[test]
fn reading_13_more_codes_than_vertices_is_cyclic() {
    let mut input = Input::new(&[b"A", b"B", b"C"], 2, 1, &diagonal(2));
    assert_eq!(input.build(), Err(refusal(8, 3)));
}

#[test]
fn reading_16_the_place_of_a_mark_is_where_it_begins() {
    for offset in [0, 7, GV, RK, KY, KY + KY_BYTES, KY + 3 * KY_BYTES] {
        for byte in [offset, offset + 1] {
            let mut file = case_1_file();
            file[byte] ^= 1;
            assert_eq!(open(&file), Err(refusal(10, offset)));
        }
    }
}

/// The byte 8B has the value 3 at vertex 0 (case 1's is 88). Line 0's code becomes AA, which
/// lands on an unassigned vertex.
#[test]
fn reading_17_all_marks_before_12_and_all_of_14_before_15() {
    let mut file = case_1_file();
    file[GV + 2] = 0x8B;
    file[KY + 3 * KY_BYTES] = b'X';
    assert_eq!(open(&file), Err(refusal(10, KY + 3 * KY_BYTES)));
    let mut file = case_1_file();
    file[KY + 3] = b'A';
    assert_eq!(open(&file), Err(refusal(15, 0)));
    file[KY + 3 * KY_BYTES + 34] = 1;
    assert_eq!(open(&file), Err(refusal(14, 3)));
}

/// m = 6 with r = 2: two GV bytes, of which the upper four bits of the second are spare. With no
/// codes the bytes are AA 0A. 3 at vertex 5 makes the second 0E, and 1E sets a spare bit too.
/// m = 9 with r = 3: three GV bytes, FF FF 03; every pair of bits is at most 3.
#[test]
fn reading_19_refusal_12() {
    let mut file = directory(&[], 2, 3, &diagonal(2));
    assert_eq!(file[GV..GV + 4], *b"GV\xAA\x0A");
    file[GV + 3] = 0x1E;
    assert_eq!(open(&file), Err(refusal(12, 5)));
    file[GV + 3] = 0x1A;
    assert_eq!(open(&file), Err(refusal(12, 6)));
    let mut file = directory(&[], 3, 3, &diagonal(3));
    let gv = 7 + 2 + 192;
    assert_eq!(file[gv..gv + 5], *b"GV\xFF\xFF\x03");
    file[gv + 4] = 0x07;
    assert_eq!(open(&file), Err(refusal(12, 9)));
}

/// The values 2 2 2 0 2 2 2 2 are the bytes 2A AA. BA has the vertices 2 and 5, with values 2 and
/// 2: it lands on vertex 2, unassigned, although the count below it is its line 0.
#[test]
fn reading_20_a_stored_code_that_lands_unassigned() {
    let file = stranger([0x2A, 0xAA], &[b"BA"]);
    assert_eq!(open(&file), Err(refusal(15, 0)));
    assert_eq!(lookup(&file, b"BA"), Found::Unknown);
}

/// The values 0 2 1 2 2 0 1 2 are the bytes 98 92. By hand: DA (0,5) sums to 0 and lands on 0;
/// BB (2,6) to 2, on 2; BA (2,5) to 1, on 5; DB (0,6) to 1, on 6. So their lines are 0 1 2 3.
#[test]
fn reading_21_a_strangers_file_over_a_cyclic_graph() {
    let file = stranger([0x98, 0x92], &[b"DA", b"BB", b"BA", b"DB"]);
    assert_eq!(open(&file), Ok(Header { n: 4, r: 2, v: 4 }));
    let codes: [&[u8]; 4] = [b"DA", b"BB", b"BA", b"DB"];
    assert_eq!(lines(&file, &codes), at(&[0, 1, 2, 3]));
    let mut input = Input::new(&codes, 2, 4, &diagonal(2));
    assert_eq!(input.build(), Err(refusal(8, 4)));
}

#[test]
fn reading_22_lookup_looks_at_no_other_mark_and_at_no_filling() {
    let mut file = case_1_file();
    for offset in [7, GV, RK, KY, KY + KY_BYTES] {
        file[offset] = b'?';
    }
    file[KY + 34] = 9;
    let codes: [&[u8]; 4] = [b"DA", b"BA", b"BB", b"BC"];
    assert_eq!(lines(&file, &codes), at(&[0, 1, 2, 3]));
}

/// Line 3 is the last, so a length of 255 there runs past the end of the file.
#[test]
fn reading_22_the_stored_length_is_compared_first() {
    for stored_length in [0, 1, 3, 32, 33, 255] {
        let mut file = case_1_file();
        file[KY + 3 * KY_BYTES + 2] = stored_length;
        assert_eq!(lookup(&file, b"BC"), Found::Unknown);
    }
}

/// Case 1's values with 3 at vertex 1 are 0 3 0 2 .., whose first byte is 8C. DA sums to 2 and
/// keeps line 0. BA lands on vertex 2 with two assigned below: line 2 holds BB. BB gets line 3,
/// which holds BC. BC gets line 4 and there are 4 codes. AB has the vertices 1 and 6, with values
/// 3 + 1 = 4: it lands on vertex 1, line 1, which holds BA. With 3 at vertex 6 instead of 1 (second byte 7A)
/// BB sums to 0 + 3 and still lands on vertex 6.
#[test]
fn reading_22_a_stored_3_at_arity_2() {
    let mut file = case_1_file();
    file[GV + 2] = 0x8C;
    assert_eq!(lookup(&file, b"DA"), Found::At(0));
    assert_eq!(lookup(&file, b"BA"), Found::Unknown);
    assert_eq!(lookup(&file, b"BB"), Found::Unknown);
    assert_eq!(lookup(&file, b"BC"), Found::Refused(refusal(13, 0)));
    assert_eq!(lookup(&file, b"AB"), Found::Unknown);
    let mut file = case_1_file();
    file[GV + 3] = 0x7A;
    let codes: [&[u8]; 4] = [b"DA", b"BA", b"BB", b"BC"];
    assert_eq!(lines(&file, &codes), at(&[0, 1, 2, 3]));
    assert_eq!(open(&file), Err(refusal(12, 6)));
}

/// All values 0: AA lands on its vertex 1, the count below is 1 and there is no line. DA lands on
/// vertex 0: line 0 is not below n = 0.
#[test]
fn reading_22_no_codes_but_assigned_values() {
    let file = stranger([0, 0], &[]);
    assert_eq!(lookup(&file, b"AA"), Found::Refused(refusal(13, 0)));
    assert_eq!(lookup(&file, b"DA"), Found::Refused(refusal(13, 0)));
    assert_eq!(open(&file), Err(refusal(13, 1)));
}

/// r = 2, v = 100: rank entries 0 1 2 2. GV has 50 bytes, so RK begins at 137 + 52 = 189 and its
/// entry 1 at 193. 5A06 lands on vertex 90, in block 1; 0A05 on vertex 10, in block 0.
#[test]
fn reading_23_the_place_of_13_at_lookup() {
    let codes: [&[u8]; 2] = [b"\x0A\x05", b"\x5A\x06"];
    let mut file = directory(&codes, 2, 100, &diagonal(2));
    assert_eq!(file[189..199], *b"RK\x00\x00\x01\x00\x02\x00\x02\x00");
    file[193] = 2;
    assert_eq!(lookup(&file, codes[1]), Found::Refused(refusal(13, 1)));
    assert_eq!(lookup(&file, codes[0]), Found::At(0));
    file[193] = 0xFF;
    file[194] = 0xFF;
    assert_eq!(lookup(&file, codes[1]), Found::Refused(refusal(13, 1)));
    file[191] = 0xFF;
    assert_eq!(lookup(&file, codes[0]), Found::Refused(refusal(13, 0)));
}

/// 64 codes of one byte 0 to 63 with v = 100: code k has the vertices k and 100. By hand, from
/// the end: every vertex k gets 0 and vertex 100 stays at 2, so code k has line k. With rank entry
/// 0 (at 137 + 52 + 2 = 191) at 65,535, code 63 has 65,535 + 63, which must not wrap to 62.
#[test]
fn reading_2_rank_entry_plus_count_does_not_wrap() {
    let bytes: Vec<[u8; 1]> = (0..64).map(|k| [k]).collect();
    let codes: Vec<&[u8]> = bytes.iter().map(|byte| &byte[..]).collect();
    let mut file = directory(&codes, 2, 100, &diagonal(2));
    assert_eq!(lines(&file, &codes), at(&(0..64).collect::<Vec<_>>()));
    file[191] = 0xFF;
    file[192] = 0xFF;
    for code in codes {
        assert_eq!(lookup(&file, code), Found::Refused(refusal(13, 0)));
    }
}

#[test]
fn reading_24_showing() {
    let mut file = case_1_file();
    file[KY] = b'?';
    file[KY + 34] = 9;
    let start = KY + 3;
    assert_eq!(show(&file, 0), Part { start, length: 2 });
    for stored_length in [0, 33, 255] {
        file[KY + 2] = stored_length;
        let empty = Part {
            start: 0,
            length: 0,
        };
        assert_eq!(show(&file, 0), empty);
    }
    file[KY + 2] = 32;
    assert_eq!(show(&file, 0), Part { start, length: 32 });
}

/// The longest file has 37,197 bytes; the input here is longer, and its beginning would open.
#[test]
fn reading_26_the_listers_input_is_not_cut() {
    assert_eq!(list(b""), b"refused 9 0\n");
    let mut long = case_1_file();
    long.push(0);
    assert_eq!(list(&long), b"refused 9 0\n");
    long.resize(100_000, 0);
    assert_eq!(list(&long), b"refused 9 0\n");
}

/// Removal order and lines are the design's. By hand, the values: BAE gives vertex 1 the value 0,
/// BDF vertex 8 the value 1, CFF (sum 3 + 3) vertex 2 the value 0, FDE (sum 1 + 3) vertex 0 the
/// value 2, CCD vertex 7 the value 1. Going through a code's vertices from j = r-1 down would
/// remove in the order 2 4 0 1 3. By hand, who waits: 2 and 4 from the start; 2 leaves 0 alone on vertex
/// 2; 4 leaves 3 alone on vertex 8 and 1 on 14, so that 0, 3 and 1 wait; 0 leaves 1 alone on 5 and 3 on
/// 10, which wait already. So 2, 2, 3, 2, 1 and 0 wait: counted before the others join, 2 at most.
#[test]
fn vector_arity_3_with_five_codes() {
    let codes: [&[u8]; 5] = [b"CFF", b"BAE", b"CCD", b"BDF", b"FDE"];
    let vertices_of = vertices_of(&codes, 3, 5);
    let by_hand = [[2, 5, 10], [1, 5, 14], [2, 7, 13], [1, 8, 10], [0, 8, 14]];
    assert_eq!(vertices_of, by_hand);
    let peeled = peel(&vertices_of);
    assert_eq!(peeled.removal_list, [2, 4, 0, 3, 1]);
    assert_eq!(peeled.most_waiting, 3);
    assert_eq!(
        values(&vertices_of, &peeled.removal_list, 3, 15),
        [2, 0, 0, 3, 3, 3, 3, 1, 1, 3, 3, 3, 3, 3, 3]
    );
    let file = directory(&codes, 3, 5, &diagonal(3));
    assert_eq!(lines(&file, &codes), at(&[2, 1, 3, 4, 0]));
}

/// The order is the design's: removing AAA brings two vertices of BAA to degree 1 in one step. By
/// hand, the values: BAA gives vertex 0 the value 0, BBB vertex 2 the value 1, AAA (sum 3 + 3)
/// vertex 1 the value 0. So BAA lands on 0, AAA on 1 and BBB (0 + 1 + 3) on 2. AAA and BBB wait from the
/// start, then BBB and BAA: if BAA joined twice, there would be 3.
#[test]
fn vector_a_code_that_would_join_twice() {
    let codes: [&[u8]; 3] = [b"BAA", b"AAA", b"BBB"];
    let vertices_of = vertices_of(&codes, 3, 2);
    assert_eq!(vertices_of, [[0, 3, 5], [1, 3, 5], [0, 2, 4]]);
    let peeled = peel(&vertices_of);
    assert_eq!(peeled.removal_list, [1, 2, 0]);
    assert_eq!(peeled.most_waiting, 2);
    assert_eq!(
        values(&vertices_of, &peeled.removal_list, 3, 6),
        [0, 0, 1, 3, 3, 3]
    );
    let file = directory(&codes, 3, 2, &diagonal(3));
    assert_eq!(lines(&file, &codes), at(&[0, 1, 2]));
}

#[test]
fn vector_rank_entries_over_four_blocks() {
    let codes: [&[u8]; 2] = [b"\x0A\x05", b"\x5A\x06"];
    let vertices_of = vertices_of(&codes, 2, 100);
    assert_eq!(vertices_of, [[10, 105], [90, 106]]);
    let values = values(&vertices_of, &peel(&vertices_of).removal_list, 2, 200);
    assert_eq!(rank_entries(&values, 2), [0, 1, 2, 2]);
    let file = directory(&codes, 2, 100, &diagonal(2));
    assert_eq!(open(&file), Ok(Header { n: 2, r: 2, v: 100 }));
    assert_eq!(lines(&file, &codes), at(&[0, 1]));
}
