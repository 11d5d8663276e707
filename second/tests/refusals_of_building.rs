//! The refusals 1 to 8, each at its first and its last place; a refused build changes no byte.
//! Expected numbers and places follow from document 01's table of refusals.

mod common;

use common::{
    assert_refused, case_1, coloured, diagonal, lent, many_codes, refusal, star_weights, Input,
    CASE_1,
};

/// Any arity but 2 and 3; a part size of 0 as well, so that r = 0 meets no division.
#[test]
fn refusal_1_arity() {
    for r in [0, 1, 4, 5, 255, 256 + 2, 65_536 + 3, u64::MAX] {
        for v in [0, 4, u64::MAX] {
            let input = Input { r, v, ..case_1() };
            assert_refused(input, refusal(1, 0));
        }
    }
}

/// (2^63 + 4)·2 would wrap to 8 in 64 bits, and 2^32 to 0 in 32 bits.
#[test]
fn refusal_2_part_size() {
    for v in [0, 2_049, 65_536, 1 << 32, (1 << 63) + 4, u64::MAX] {
        assert_refused(Input { v, ..case_1() }, refusal(2, 0));
    }
    let arity_3 = Input {
        v: 1_366,
        r: 3,
        weights: diagonal(3),
        ..case_1()
    };
    assert_refused(arity_3, refusal(2, 0));
}

#[test]
fn refusal_3_number_of_weights() {
    for (r, counts) in [(2, [0, 63, 65, 96]), (3, [0, 95, 97, 64])] {
        for count in counts {
            let weights = vec![0; count];
            let input = Input {
                r,
                weights,
                ..case_1()
            };
            assert_refused(input, refusal(3, 0));
        }
    }
}

/// 65,536 + 4 codes would be 4 in two bytes.
#[test]
fn refusal_4_number_of_codes() {
    for count in [1_025, 65_540] {
        let input = Input {
            ends: vec![1; count],
            buffer: coloured(40_000),
            ..case_1()
        };
        assert_refused(input, refusal(4, 0));
    }
}

#[test]
fn refusal_5_first_and_last_place() {
    let codes = many_codes(1_024);
    let whole = Input {
        buffer: coloured(40_000),
        ..Input::new(&lent(&codes), 2, 2_048, &star_weights(2))
    };
    for place in [0, 1, 511, 1_023] {
        let mut input = whole.clone();
        input.ends[place] = 2 * place as u16;
        assert_refused(input, refusal(5, place));
    }
    let mut input = whole.clone();
    input.run.push(0);
    assert_refused(input, refusal(5, 1_024));
    let mut input = whole.clone();
    input.ends[1_023] -= 1;
    assert_refused(input, refusal(5, 1_024));
    let mut input = whole;
    input.ends[1_023] += 1;
    assert_refused(input, refusal(5, 1_023));
}

/// The lengths by the document's formula: 13 + 64·2 + 2 + 2 = 145 without codes, 285 with four.
#[test]
fn refusal_6_buffer() {
    for (codes, needed) in [(&CASE_1[..0], 145), (&CASE_1[..1], 180), (&CASE_1, 285)] {
        for short in [0, 1, needed - 1] {
            let mut input = Input::new(codes, 2, 4, &diagonal(2));
            input.buffer = coloured(short);
            assert_refused(input, refusal(6, needed));
        }
    }
}

#[test]
fn refusal_7_first_and_last_place() {
    for place in [1, 2, 3] {
        let mut codes = CASE_1;
        codes[place] = codes[0];
        assert_refused(Input::new(&codes, 2, 4, &diagonal(2)), refusal(7, place));
    }
    let several: [&[u8]; 5] = [b"BA", b"BB", b"BC", b"BB", b"BA"];
    assert_refused(Input::new(&several, 2, 4, &diagonal(2)), refusal(7, 3));
    let mut codes = many_codes(1_024);
    codes[1_023] = codes[1_022].clone();
    let input = Input::new(&lent(&codes), 2, 2_048, &star_weights(2));
    assert_refused(input, refusal(7, 1_023));
}

/// A code and the same code with a zero byte after it are different codes, with equal sums.
#[test]
fn refusal_7_compares_lengths_too() {
    let codes: [&[u8]; 2] = [b"BA", b"BA\0"];
    assert_refused(Input::new(&codes, 2, 4, &diagonal(2)), refusal(8, 2));
}

/// With weights of 0 all codes name the same vertices, so that none can be removed.
#[test]
fn refusal_8_smallest_and_largest_place() {
    for (r, v) in [(2, 2_048), (3, 1_365)] {
        for count in [2, 1_024] {
            let codes = many_codes(count);
            let input = Input::new(&lent(&codes), r, v, &vec![0; 32 * r as usize]);
            assert_refused(input, refusal(8, count));
        }
    }
}
