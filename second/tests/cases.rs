//! Cases 1 to 12 of document 01 and the lister's text. Every expected value is typed from the
//! document, or worked out by hand where a comment says so.

mod common;

use common::{built, case_1, coloured, diagonal, directory, refusal, Input, CASE_1};
use second::graph::peel;
use second::table::{assigned, landing_vertex, line, rank_entries, values};
use second::vertices::{sum, vertices};
use second::{length, list, lookup, open, show, Found, Header};

/// The vertices of case 1's codes.
const CASE_1_VERTICES: [[usize; 2]; 4] = [[2, 5], [2, 6], [0, 5], [2, 7]];
/// The values of case 1.
const CASE_1_VALUES: [usize; 8] = [0, 2, 0, 2, 2, 2, 1, 1];

/// The directory file of codes with r = 2, v = 4 and the weights of case 1.
fn usual(codes: &[&[u8]]) -> Vec<u8> {
    directory(codes, 2, 4, &diagonal(2))
}

/// The refusal of codes with r = 2, v = 4 and the weights of case 1, as number and place.
fn usual_refusal(codes: &[&[u8]]) -> (u8, usize) {
    let refusal = Input::new(codes, 2, 4, &diagonal(2))
        .build()
        .expect_err("the list should be refused");
    (refusal.number, refusal.place)
}

fn usual_vertices(code: &[u8]) -> Vec<usize> {
    vertices(code, &diagonal(2), 2, 4)
}

fn case_1_vertices() -> Vec<Vec<usize>> {
    CASE_1_VERTICES.iter().map(|pair| pair.to_vec()).collect()
}

/// The document: "the largest sum is 534,765,600"; that is 32 bytes of 255 under weights of 65,535.
#[test]
fn the_largest_sum() {
    let weights = [65_535; 96];
    for j in 0..3 {
        assert_eq!(sum(&[255; 32], &weights, j), 534_765_600);
    }
}

#[test]
fn case_1_vertices_of_the_codes() {
    for (code, expected) in CASE_1.iter().zip(CASE_1_VERTICES) {
        assert_eq!(usual_vertices(code), expected);
    }
}

/// "They peel as BB, DA, BC, BA": codes 1, 2, 3 and 0 of the list.
#[test]
fn case_1_order_of_removal() {
    assert_eq!(peel(&case_1_vertices()).removal_list, [1, 2, 3, 0]);
}

/// Reading 36: "case 1 gives 3". By hand: BB, DA and BC have the vertices 6, 0 and 7 to themselves and wait from the
/// start. BB leaves two waiting; DA leaves BA alone on vertex 5, which joins BC; BC leaves BA waiting, which then goes.
/// So 3, 2, 2, 1 and 0 wait.
#[test]
fn case_1_most_waiting() {
    assert_eq!(peel(&case_1_vertices()).most_waiting, 3);
    assert_eq!(case_1().build(), built(3));
}

#[test]
fn case_1_values_rank_and_lines() {
    let values = values(&case_1_vertices(), &[1, 2, 3, 0], 2, 8);
    assert_eq!(values, CASE_1_VALUES);
    assert_eq!(rank_entries(&values, 2), [0]);
    let lines: Vec<usize> = CASE_1_VERTICES
        .iter()
        .map(|pair| line(landing_vertex(pair, &values, 2), &values, 2))
        .collect();
    assert_eq!(lines, [1, 2, 0, 3]);
}

/// The whole file, record by record after the document's table of records. Weight 0 is p(0,0) and
/// weight 33 = 32·1 + 1 is p(1,1). The KY records stand in the line order DA, BA, BB, BC.
#[test]
fn case_1_every_byte_of_the_file() {
    let mut expected = b"HD\x04\x00\x02\x04\x00".to_vec();
    expected.extend_from_slice(b"WT\x01\x00");
    expected.extend_from_slice(&[0; 2 * 32]);
    expected.extend_from_slice(b"\x01\x00");
    expected.extend_from_slice(&[0; 2 * 30]);
    expected.extend_from_slice(b"GV\x88\x5A");
    expected.extend_from_slice(b"RK\x00\x00");
    for code in [b"DA", b"BA", b"BB", b"BC"] {
        expected.extend_from_slice(b"KY\x02");
        expected.extend_from_slice(code);
        expected.extend_from_slice(&[0; 30]);
    }
    assert_eq!(expected.len(), 285);
    assert_eq!(usual(&CASE_1), expected);
}

#[test]
fn case_1_length_opening_lookup_and_showing() {
    let file = usual(&CASE_1);
    assert_eq!(file.len(), 285);
    assert_eq!(length(4, 2, 4), Some(285));
    assert_eq!(open(&file), Ok(Header { n: 4, r: 2, v: 4 }));
    let by_line: [&[u8]; 4] = [b"DA", b"BA", b"BB", b"BC"];
    for (line, code) in by_line.iter().enumerate() {
        assert_eq!(lookup(&file, code), Found::At(line));
        assert_eq!(show(&file, line as u64).of(&file), *code);
    }
}

#[test]
fn case_2_a_stranger_that_lands_unassigned() {
    assert_eq!(usual_vertices(b"AA"), [1, 5]);
    assert_eq!([CASE_1_VALUES[1], CASE_1_VALUES[5]], [2, 2]);
    assert_eq!(landing_vertex(&[1, 5], &CASE_1_VALUES, 2), 1);
    assert_eq!(lookup(&usual(&CASE_1), b"AA"), Found::Unknown);
}

#[test]
fn case_3_a_stranger_that_lands_on_a_line() {
    let landing_vertex = landing_vertex(&usual_vertices(b"DB"), &CASE_1_VALUES, 2);
    assert_eq!(landing_vertex, 6);
    assert_eq!(line(landing_vertex, &CASE_1_VALUES, 2), 2);
    let file = usual(&CASE_1);
    assert_eq!(show(&file, 2).of(&file), b"BB");
    assert_eq!(lookup(&file, b"DB"), Found::Unknown);
}

/// By hand: BA has the vertices 2 and 5, both unvisited, so vertex 2 gets 0 and no other a value.
#[test]
fn case_4_a_single_code() {
    let file = usual(&[b"BA"]);
    assert_eq!(lookup(&file, b"BA"), Found::At(0));
    let values = values(&[vec![2, 5]], &[0], 2, 8);
    assert_eq!(values, [2, 2, 0, 2, 2, 2, 2, 2]);
    let landing_vertex = landing_vertex(&usual_vertices(b"CA"), &values, 2);
    assert_eq!(landing_vertex, 3);
    assert_eq!(values[3], 2);
    assert_eq!(assigned(&values[..3], 2), 1);
    assert_eq!(lookup(&file, b"CA"), Found::Unknown);
}

#[test]
fn case_5_cyclic() {
    assert_eq!(usual_refusal(&[b"BA", b"BB", b"DA", b"DB"]), (8, 4));
}

#[test]
fn case_6_cyclic_with_a_code_that_peels() {
    assert_eq!(usual_refusal(&[b"BA", b"BB", b"DA", b"DB", b"BC"]), (8, 4));
}

#[test]
fn case_7_the_same_vertices() {
    assert_eq!(usual_vertices(b"BA"), usual_vertices(b"FA"));
    assert_eq!(usual_refusal(&[b"BA", b"FA"]), (8, 2));
}

#[test]
fn case_8_a_code_twice() {
    assert_eq!(usual_refusal(&[b"BA", b"BB", b"BA"]), (7, 2));
}

/// The length by hand: 13 + 64·2 + 2 + 2·1 = 145. With no codes there is no KY record. Reading 36: n = 0 gives 0.
#[test]
fn case_9_no_codes() {
    assert_eq!(Input::new(&[], 2, 4, &diagonal(2)).build(), built(0));
    let file = usual(&[]);
    assert_eq!(file.len(), 145);
    assert_eq!(open(&file), Ok(Header { n: 0, r: 2, v: 4 }));
    assert_eq!(lookup(&file, b"AA"), Found::Unknown);
    for byte in 0..=255 {
        for code_length in [1, 2, 31, 32] {
            assert_eq!(lookup(&file, &vec![byte; code_length]), Found::Unknown);
        }
    }
    assert!(show(&file, 0).of(&file).is_empty());
}

/// The GV byte stands after HD (7 bytes), WT (2 + 192) and the mark: at 7 + 194 + 2 = 203.
#[test]
fn case_10_arity_3_with_unassigned_3() {
    let zeros = [0; 96];
    assert_eq!(values(&[vec![0, 1, 2]], &[0], 3, 3), [0, 3, 3]);
    let file = directory(&[b"BA"], 3, 1, &zeros);
    assert_eq!(&file[201..204], b"GV\x3C");
    assert_eq!(open(&file), Ok(Header { n: 1, r: 3, v: 1 }));
    assert_eq!(lookup(&file, b"BA"), Found::At(0));
    let mut two = Input::new(&[b"BA", b"BB"], 3, 1, &zeros);
    assert_eq!(two.build(), Err(refusal(8, 2)));
}

#[test]
fn case_11_longest_code() {
    let longest: &[u8] = &[b'B'; 32];
    let too_long: &[u8] = &[b'B'; 33];
    let file = usual(&[longest]);
    assert_eq!(lookup(&file, longest), Found::At(0));
    assert_eq!(show(&file, 0).of(&file), longest);
    assert_eq!(usual_refusal(&[too_long]), (5, 0));
    assert_eq!(lookup(&file, too_long), Found::Refused(refusal(16, 0)));
}

#[test]
fn case_11_largest_part_size() {
    for (r, largest) in [(2, 2_048), (3, 1_365)] {
        let weights = diagonal(r);
        let file = directory(&[b"BA"], r as u64, largest, &weights);
        assert_eq!(lookup(&file, b"BA"), Found::At(0));
        let mut over = Input::new(&[b"BA"], r as u64, largest + 1, &weights);
        over.buffer = coloured(40_000);
        assert_eq!(over.build(), Err(refusal(2, 0)));
    }
}

#[test]
fn case_12_the_buffer() {
    let mut input = Input::new(&CASE_1, 2, 4, &diagonal(2));
    input.buffer = coloured(285);
    assert_eq!(input.build(), built(3));
    assert_eq!(input.buffer, usual(&CASE_1));
    input.buffer = coloured(284);
    assert_eq!(input.build(), Err(refusal(6, 285)));
    assert_eq!(input.buffer, coloured(284));
}

#[test]
fn the_listers_text() {
    let case_1 = usual(&CASE_1);
    assert_eq!(list(&case_1), b"0 4441\n1 4241\n2 4242\n3 4243\n");
    assert_eq!(list(&usual(&[])), b"");
}

/// The form is the document's; the numbers by hand: one byte missing is 9 without a place, and
/// the wrong mark of line 3 stands 35 bytes before the end of the 285.
#[test]
fn the_listers_text_for_refused_files() {
    let case_1 = usual(&CASE_1);
    assert_eq!(list(&case_1[..284]), b"refused 9 0\n");
    let mut wrong_mark = case_1;
    wrong_mark[250] = b'k';
    assert_eq!(list(&wrong_mark), b"refused 10 250\n");
}
