//! The sign's refusals: each at its edges, and which of two that both apply is given, as document 02 a) and readings
//! 28 to 31 lay down. A refused report changes no byte of the lists.

mod common;

use common::signs::{fresh, Sign};
use common::{case_1_file, diagonal, directory, refusal, RK};
use second::sign::{Asked, Report, Reported};
use second::Refusal;
use std::collections::BTreeSet;

/// The time of every line's last report, and their level.
const HEARD_AT: u32 = 1_000;
const LEVEL: i32 = 10;

/// A sign over case 1's file whose 4 lines were heard, with the arguments of a report and of a question that are both
/// right. BC has line 3.
#[derive(Clone)]
struct Call {
    sign: Sign,
    code: Vec<u8>,
    level: i32,
    time: u32,
    limit: u32,
}

fn right() -> Call {
    let mut sign = Sign::of_case_1();
    for (line, code) in [b"DA", b"BA", b"BB", b"BC"].into_iter().enumerate() {
        sign.accept(code, LEVEL, HEARD_AT, line);
    }
    Call {
        sign,
        code: b"BC".to_vec(),
        level: -5,
        time: HEARD_AT,
        limit: 60,
    }
}

impl Call {
    /// Reports; where it is not accepted, checks that no byte changes.
    fn report(mut self) -> Result<Reported, Refusal> {
        let before = self.sign.clone();
        let answer = self.sign.report(&self.code, self.level, self.time);
        if !matches!(answer, Ok(Reported::Accepted(_))) {
            assert_eq!(self.sign, before, "the lists change");
        }
        answer
    }

    fn ask(&self) -> Result<Asked, Refusal> {
        self.sign.ask(&self.code, self.time, self.limit)
    }
}

fn changed(change: impl Fn(&mut Call)) -> Call {
    let mut call = right();
    change(&mut call);
    call
}

#[test]
fn what_is_right_is_not_refused() {
    assert_eq!(right().report(), Ok(Reported::Accepted(3)));
    assert_eq!(right().ask(), fresh(LEVEL));
}

#[test]
fn a_level_out_of_range_is_17() {
    for level in [-20_001, 20_001, 30_000, i32::MIN, i32::MAX, 65_536, -65_536] {
        let wrong = changed(|call| call.level = level);
        assert_eq!(wrong.clone().report(), Err(refusal(17, 0)), "{level}");
        let mut never_heard = wrong;
        never_heard.sign = Sign::of_case_1();
        assert_eq!(never_heard.report(), Err(refusal(17, 0)), "{level}");
    }
    for level in [-20_000, -19_999, -1, 0, 1, 19_999, 20_000] {
        let right = changed(|call| call.level = level);
        assert_eq!(right.report(), Ok(Reported::Accepted(3)), "{level}");
    }
}

#[test]
fn a_time_before_the_last_is_18_and_a_now_before_it_19() {
    for time in [0, 1, HEARD_AT - 1] {
        let earlier = changed(|call| call.time = time);
        assert_eq!(earlier.clone().report(), Err(refusal(18, 0)), "{time}");
        assert_eq!(earlier.ask(), Err(refusal(19, 0)), "{time}");
    }
    for time in [HEARD_AT, HEARD_AT + 1, 1 << 31, u32::MAX] {
        let later = changed(|call| call.time = time);
        assert!(later.ask().is_ok(), "{time}");
        assert_eq!(later.report(), Ok(Reported::Accepted(3)), "{time}");
    }
    let never_heard = changed(|call| {
        call.sign = Sign::of_case_1();
        call.time = 0;
    });
    assert_eq!(never_heard.ask(), Ok(Asked::Never));
    assert_eq!(never_heard.report(), Ok(Reported::Accepted(3)));
}

#[test]
fn a_limit_out_of_range_is_22() {
    for limit in [0, 86_401, 86_402, 151_936, 1 << 31, u32::MAX] {
        let wrong = changed(|call| call.limit = limit);
        assert_eq!(wrong.ask(), Err(refusal(22, 0)), "{limit}");
    }
    for limit in [1, 2, 65_536, 86_399, 86_400] {
        let right = changed(|call| call.limit = limit);
        assert_eq!(right.ask(), fresh(LEVEL), "{limit}");
    }
}

/// 4 lines have lists of 16 bytes. All other lengths up to 40, some of which are a place or a byte off and some odd.
#[test]
fn a_list_of_another_length_is_23() {
    for length in (0..40).filter(|&length| length != 16) {
        let levels = changed(|call| call.sign.levels.resize(length, 0));
        let times = changed(|call| call.sign.times.resize(length, 0));
        let both = changed(|call| {
            call.sign.levels.resize(length, 0);
            call.sign.times.resize(length, 0);
        });
        for wrong in [levels, times, both] {
            assert_eq!(wrong.ask(), Err(refusal(23, 0)), "{length}");
            assert_eq!(wrong.report(), Err(refusal(23, 0)), "{length}");
        }
    }
    for (levels, times) in [(15, 17), (17, 15), (12, 20), (20, 12), (0, 32)] {
        let wrong = changed(|call| {
            call.sign.levels.resize(levels, 0);
            call.sign.times.resize(times, 0);
        });
        assert_eq!(wrong.ask(), Err(refusal(23, 0)), "{levels}, {times}");
        assert_eq!(wrong.report(), Err(refusal(23, 0)), "{levels}, {times}");
    }
}

/// By hand, with r = 2 and v = 100: the codes have the vertices (10, 105) and (90, 106), each alone on its own, and
/// land on 10 and 90. GV is at 137 with 50 bytes, RK at 189, and entry 1 at 193. With FFFF there the second code, in
/// block 1, has no line below n = 2: 13, place 1.
#[test]
fn the_directorys_refusals_keep_their_places() {
    let codes: [&[u8]; 2] = [&[0x0A, 0x05], &[0x5A, 0x06]];
    let mut sign = Sign::cleared(directory(&codes, 2, 100, &diagonal(2)), 2);
    assert_eq!(sign.file[189..191], *b"RK");
    sign.file[193..195].fill(0xFF);
    let report = Report { level: 1, time: 1 };
    sign.assert_kept(codes[1], report, Err(refusal(13, 1)));
    assert_eq!(sign.ask(codes[1], 1, 1), Err(refusal(13, 1)));
    sign.accept(codes[0], 1, 1, 0);
    assert_eq!(sign.ask(codes[0], 1, 1), fresh(1));
}

/// What a fault of a call has to be answered with; none where the code is unknown.
type Fault = (fn(&mut Call), Option<Refusal>);

const fn fault(change: fn(&mut Call), number: u8) -> Fault {
    (change, Some(Refusal { number, place: 0 }))
}

const UNDER_7: Fault = fault(|call| call.sign.file.truncate(6), 9);
const MARK: Fault = fault(|call| call.sign.file[0] = b'?', 10);
const NUMBERS: Fault = fault(|call| call.sign.file[4] = 4, 11);
const LENGTH: Fault = fault(|call| call.sign.file.push(0), 9);
const EMPTY_CODE: Fault = fault(|call| call.code.clear(), 16);
const LONG_CODE: Fault = fault(|call| call.code = vec![b'B'; 33], 16);
const RANK: Fault = fault(|call| call.sign.file[RK + 2..RK + 4].fill(0xFF), 13);
const LOW_LIMIT: Fault = fault(|call| call.limit = 0, 22);
const HIGH_LIMIT: Fault = fault(|call| call.limit = 86_401, 22);
const SHORT_LEVELS: Fault = fault(|call| call.sign.levels.truncate(15), 23);
const LONG_TIMES: Fault = fault(|call| call.sign.times.resize(20, 0), 23);
/// DB lands on the line of BB, which was heard.
const STRANGER: Fault = (|call| call.code = b"DB".to_vec(), None);
const LOW_LEVEL: Fault = fault(|call| call.level = -20_001, 17);
const HIGH_LEVEL: Fault = fault(|call| call.level = 20_001, 17);
const EARLIER: Fault = fault(|call| call.time = HEARD_AT - 1, 18);
const EARLIER_NOW: Fault = fault(|call| call.time = HEARD_AT - 1, 19);

/// The faults of a report in the order in which document 02 looks for them, those of one check together.
const OF_REPORTS: [&[Fault]; 10] = [
    &[UNDER_7],
    &[MARK],
    &[NUMBERS],
    &[LENGTH],
    &[EMPTY_CODE, LONG_CODE],
    &[RANK],
    &[SHORT_LEVELS, LONG_TIMES],
    &[STRANGER],
    &[LOW_LEVEL, HIGH_LEVEL],
    &[EARLIER],
];

const OF_QUESTIONS: [&[Fault]; 10] = [
    &[UNDER_7],
    &[MARK],
    &[NUMBERS],
    &[LENGTH],
    &[EMPTY_CODE, LONG_CODE],
    &[RANK],
    &[LOW_LIMIT, HIGH_LIMIT],
    &[SHORT_LEVELS, LONG_TIMES],
    &[STRANGER],
    &[EARLIER_NOW],
];

/// Each fault alone and with each of a later check, which is put in first, since the earlier may cut the file or take
/// another code.
fn each_alone_and_each_two(faults: &[&[Fault]], assert: impl Fn(Call, Option<Refusal>)) {
    for (check, first_faults) in faults.iter().enumerate() {
        for (first, expected) in *first_faults {
            assert(changed(first), *expected);
            for (later, _) in faults[check + 1..].iter().copied().flatten() {
                let both = changed(|call| {
                    later(call);
                    first(call);
                });
                assert(both, *expected);
            }
        }
    }
}

/// All 45 pairs of ten checks: 9 + 8 + .. + 1.
#[test]
fn the_order_of_reporting() {
    each_alone_and_each_two(&OF_REPORTS, |call, expected| {
        let expected = expected.map_or(Ok(Reported::Unknown), Err);
        assert_eq!(call.report(), expected);
    });
}

#[test]
fn the_order_of_asking() {
    each_alone_and_each_two(&OF_QUESTIONS, |call, expected| {
        let expected = expected.map_or(Ok(Asked::Unknown), Err);
        assert_eq!(call.ask(), expected);
    });
}

/// The lists are as long as the header's n calls for, not as the lists that stood there before: with the last KY
/// record away and n = 3, lists of 3 places are right. BC had the last line, so nothing more is stored for it: its
/// landing vertex is on line 3, which gives 13.
#[test]
fn the_lists_belong_to_the_header() {
    let mut file = case_1_file();
    file[2] = 3;
    file.truncate(250);
    let mut sign = Sign::cleared(file, 3);
    sign.accept(b"BB", 6, 1, 2);
    assert_eq!(sign.ask(b"BB", 1, 1), fresh(6));
    assert_eq!(sign.ask(b"BC", 1, 1), Err(refusal(13, 0)));
    sign = Sign::cleared(sign.file, 4);
    let report = Report { level: 6, time: 1 };
    sign.assert_kept(b"BB", report, Err(refusal(23, 0)));
    sign.assert_kept(b"BC", report, Err(refusal(13, 0)));
}

/// Every refusal that documents 01 and 02 a) give has words of its own; 20, 21 and 24 are for later requests.
#[test]
fn the_refusals_in_words() {
    let words = |number| refusal(number, 0).explanation();
    let given: BTreeSet<&str> = (1..=19).chain([22, 23]).map(words).collect();
    assert_eq!(given.len(), 21);
    for none in [0, 20, 21, 24, 255] {
        assert!(!given.contains(words(none)), "{none}");
    }
    assert!(words(17).contains("-20,000 to 20,000"));
    assert!(words(22).contains("1 to 86,400"));
}
