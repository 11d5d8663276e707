//! The order in which overlapping refusals are given, pair by pair, as document 01 lays it down
//! for building, opening and looking up.

mod common;

use common::{
    assert_opens_to, assert_refused, case_1, case_1_file, coloured, many_codes, refusal, Input, GV,
    KY, KY_BYTES, RK,
};
use second::text::run_and_ends;
use second::{lookup, show, Found, Part, Refusal};

/// The faults that a build's input can have, by refusal number. They can be put together if the
/// higher number is applied first.
fn put_into_input(number: u8, input: &mut Input) {
    match number {
        1 => input.r = 5,
        2 => input.v = 2_049,
        3 => drop(input.weights.pop()),
        4 => {
            let (run, ends) = run_and_ends(&many_codes(1_025));
            let taken = input.run.len() as u16;
            let missing = 1_025 - input.ends.len();
            input.run.extend_from_slice(&run[..2 * missing]);
            input
                .ends
                .extend(ends[..missing].iter().map(|end| end + taken));
        }
        5 => input.ends[1] = input.ends[0],
        6 => input.buffer = Vec::new(),
        7 => {
            input.run.extend_from_slice(b"BC");
            input.ends.push(input.run.len() as u16);
        }
        8 => input.weights.fill(0),
        other => panic!("no build gives {other}"),
    }
}

/// The place that goes with `put_into_input` for n codes: code 1 is empty; the file needs
/// 145 + 35·n bytes; the last code is the repeated one; all codes are left.
fn place_in_input(number: u8, n: usize) -> usize {
    match number {
        5 => 1,
        6 => 145 + 35 * n,
        7 => n - 1,
        8 => n,
        _ => 0,
    }
}

/// All 28 pairs of the refusals 1 to 8 can overlap. Under r = 5 or v = 2,049 the graph is cyclic
/// by the rule's own words, as all weights are 0.
#[test]
fn the_order_of_building() {
    for first in 1..=8 {
        let mut alone = case_1();
        alone.buffer = coloured(40_000);
        put_into_input(first, &mut alone);
        let n = alone.ends.len();
        assert_refused(alone, refusal(first, place_in_input(first, n)));
        for later in first + 1..=8 {
            let mut both = case_1();
            both.buffer = coloured(40_000);
            put_into_input(later, &mut both);
            put_into_input(first, &mut both);
            let n = both.ends.len();
            assert_refused(both, refusal(first, place_in_input(first, n)));
        }
    }
}

/// A change to a file, with the refusal it brings about.
type Fault = (fn(&mut Vec<u8>), Refusal);

const fn fault(change: fn(&mut Vec<u8>), number: u8, place: usize) -> Fault {
    (change, Refusal { number, place })
}

const UNDER_7: Fault = fault(|file| file.truncate(6), 9, 0);
const HD_MARK: Fault = fault(|file| file[1] = b'?', 10, 0);
const NUMBERS: Fault = fault(|file| file[4] = 4, 11, 0);
const WRONG_LENGTH: Fault = fault(|file| file.push(0), 9, 0);
const KY_MARK: Fault = fault(|file| file[KY + KY_BYTES] = b'?', 10, KY + KY_BYTES);
/// DA has the value 3 at vertex 7, which leaves the number of assigned vertices as it is.
const VALUE_3: Fault = fault(|file| file[GV + 3] = 0xDA, 12, 7);
const RANK_ENTRY: Fault = fault(|file| file[RK + 2..RK + 4].fill(0xFF), 13, 0);
const FILLING: Fault = fault(|file| file[KY + 3 * KY_BYTES + 34] = 1, 14, 3);
/// Line 0 stores AA, which lands on an unassigned vertex.
const LEADS_ASTRAY: Fault = fault(|file| file[KY + 3] = b'A', 15, 0);

/// Opening's faults in the order in which document 01 looks for them.
const OPENING: [Fault; 9] = [
    UNDER_7,
    HD_MARK,
    NUMBERS,
    WRONG_LENGTH,
    KY_MARK,
    VALUE_3,
    RANK_ENTRY,
    FILLING,
    LEADS_ASTRAY,
];

/// Every pair, the later fault put in first. Under 7 bytes only the header's two faults can be
/// there as well; the other pairs with it hold that cutting hides whatever was wrong beyond.
#[test]
fn the_order_of_opening() {
    for (i, (first, expected)) in OPENING.iter().enumerate() {
        assert_opens_to(first, Err(*expected));
        for (later, _) in &OPENING[i + 1..] {
            assert_opens_to(
                |file| {
                    later(file);
                    first(file);
                },
                Err(*expected),
            );
        }
    }
}

/// Lookup's order: 9 (under 7), 10, 11, 9 (length), 16, 13. BC lands on vertex 7; the empty code
/// would land on vertex 0, which is assigned, so that 16 and 13 overlap.
#[test]
fn the_order_of_looking_up() {
    let before_16 = [UNDER_7, HD_MARK, NUMBERS, WRONG_LENGTH];
    for (i, (first, expected)) in before_16.iter().enumerate() {
        for (later, _) in before_16[i + 1..].iter().chain([&RANK_ENTRY]) {
            let mut file = case_1_file();
            later(&mut file);
            first(&mut file);
            for code in [&b"BC"[..], b"", &[b'B'; 33]] {
                assert_eq!(lookup(&file, code), Found::Refused(*expected));
            }
        }
    }
    let mut file = case_1_file();
    RANK_ENTRY.0(&mut file);
    assert_eq!(lookup(&file, b"BC"), Found::Refused(refusal(13, 0)));
    assert_eq!(lookup(&file, b""), Found::Refused(refusal(16, 0)));
}

/// What opening looks at after the length, lookup passes over; AA is a stranger either way.
#[test]
fn lookup_gives_neither_12_nor_14_nor_15() {
    for (change, _) in [KY_MARK, VALUE_3, FILLING, LEADS_ASTRAY] {
        let mut file = case_1_file();
        change(&mut file);
        assert_eq!(lookup(&file, b"BA"), Found::At(1));
        assert_eq!(lookup(&file, b"AA"), Found::Unknown);
    }
}

#[test]
fn showing_nothing() {
    for (change, _) in [UNDER_7, HD_MARK, NUMBERS, WRONG_LENGTH] {
        let mut file = case_1_file();
        change(&mut file);
        assert_eq!(show(&file, 0), Part::EMPTY);
    }
    for line in [4, 5, 1 << 32, u64::MAX] {
        assert_eq!(show(&case_1_file(), line), Part::EMPTY);
    }
}
