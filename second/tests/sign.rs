//! The sign by hand: what reports leave in the lists, byte by byte, and what is answered to those who ask. All but two
//! tests are over case 1's file, where DA, BA, BB and BC have the lines 0 to 3. Expected values are worked out from
//! document 02 a) beside each test.

mod common;

use common::signs::{fresh, stale, Sign};
use common::{diagonal, directory, lent, many_codes, refusal, star_weights};
use second::sign::{cleared, Asked, PlainMap, Report, Reported};

/// The last time that 32 bits hold.
const LAST: u32 = 4_294_967_295;
const LONGEST_LIMIT: u32 = 86_400;

/// 30,000 is 7530 in hex.
#[test]
fn cleared_lists() {
    let (levels, times) = cleared(2);
    assert_eq!(levels, [0x30, 0x75, 0, 0, 0x30, 0x75, 0, 0]);
    assert_eq!(times, [0; 8]);
    assert_eq!(cleared(0), (Vec::new(), Vec::new()));
}

#[test]
fn nothing_is_heard_at_first() {
    let sign = Sign::of_case_1();
    for code in [b"DA", b"BA", b"BB", b"BC"] {
        for now in [0, 1, LAST] {
            assert_eq!(sign.ask(code, now, 1), Ok(Asked::Never));
        }
    }
    assert_eq!(sign.ask(b"AA", 0, 1), Ok(Asked::Unknown));
}

/// BA has line 1, so that its places are the bytes 4 to 7: -2 is FFFFFFFE and 258 is 102 in hex.
#[test]
fn a_first_report() {
    let mut sign = Sign::of_case_1();
    sign.accept(b"BA", -2, 258, 1);
    let other = [0x30, 0x75, 0, 0];
    let levels = [other, [0xFE, 0xFF, 0xFF, 0xFF], other, other].concat();
    assert_eq!(sign.levels, levels);
    assert_eq!(sign.times, [0, 0, 0, 0, 2, 1, 0, 0, 0, 0, 0, 0, 0, 0, 0, 0]);
    assert_eq!(sign.ask(b"BA", 258, 1), fresh(-2));
    assert_eq!(sign.ask(b"BB", 258, 1), Ok(Asked::Never));
}

/// In two's complement a level below zero has 2^32 added: 2^32 - 20,000 is FFFFB1E0 in hex, 2^32 - 257 is FFFFFEFF.
#[test]
fn levels_as_bytes() {
    for (level, bytes) in [
        (0, [0x00, 0x00, 0x00, 0x00]),
        (1, [0x01, 0x00, 0x00, 0x00]),
        (-1, [0xFF, 0xFF, 0xFF, 0xFF]),
        (127, [0x7F, 0x00, 0x00, 0x00]),
        (128, [0x80, 0x00, 0x00, 0x00]),
        (-128, [0x80, 0xFF, 0xFF, 0xFF]),
        (-129, [0x7F, 0xFF, 0xFF, 0xFF]),
        (255, [0xFF, 0x00, 0x00, 0x00]),
        (256, [0x00, 0x01, 0x00, 0x00]),
        (-256, [0x00, 0xFF, 0xFF, 0xFF]),
        (-257, [0xFF, 0xFE, 0xFF, 0xFF]),
        (20_000, [0x20, 0x4E, 0x00, 0x00]),
        (-20_000, [0xE0, 0xB1, 0xFF, 0xFF]),
    ] {
        let mut sign = Sign::of_case_1();
        sign.accept(b"BB", level, 7, 2);
        assert_eq!(sign.levels[8..12], bytes, "{level}");
        let mut sign = Sign::of_case_1();
        sign.levels[12..].copy_from_slice(&bytes);
        assert_eq!(sign.ask(b"BC", 0, 1), fresh(level));
    }
}

/// 16,909,060 is 1020304 in hex.
#[test]
fn times_as_bytes() {
    for (time, bytes) in [
        (0, [0x00, 0x00, 0x00, 0x00]),
        (255, [0xFF, 0x00, 0x00, 0x00]),
        (256, [0x00, 0x01, 0x00, 0x00]),
        (65_536, [0x00, 0x00, 0x01, 0x00]),
        (16_909_060, [0x04, 0x03, 0x02, 0x01]),
        (2_147_483_647, [0xFF, 0xFF, 0xFF, 0x7F]),
        (2_147_483_648, [0x00, 0x00, 0x00, 0x80]),
        (LAST, [0xFF, 0xFF, 0xFF, 0xFF]),
    ] {
        let mut sign = Sign::of_case_1();
        sign.accept(b"DA", 3, time, 0);
        assert_eq!(sign.times[..4], bytes, "{time}");
        let mut sign = Sign::of_case_1();
        sign.levels[..4].fill(0);
        sign.times[..4].copy_from_slice(&bytes);
        assert_eq!(sign.ask(b"DA", time, 1), fresh(0));
        if time > 0 {
            assert_eq!(sign.ask(b"DA", time - 1, 1), Err(refusal(19, 0)));
        }
    }
}

/// Bytes that are no level: 20,001 and -20,001, what a cleared list holds, the two ends of 32 bits, and numbers whose
/// two low bytes alone would be the levels 5 and -1. The time under them would refuse with 18 and 19.
#[test]
fn a_time_under_no_level_is_ignored() {
    for bytes in [
        [0x21, 0x4E, 0x00, 0x00],
        [0xDF, 0xB1, 0xFF, 0xFF],
        [0x30, 0x75, 0x00, 0x00],
        [0x00, 0x00, 0x00, 0x80],
        [0xFF, 0xFF, 0xFF, 0x7F],
        [0x05, 0x00, 0x01, 0x00],
        [0xFF, 0xFF, 0x00, 0x00],
        [0x05, 0x00, 0x00, 0x01],
    ] {
        let mut sign = Sign::of_case_1();
        sign.levels[4..8].copy_from_slice(&bytes);
        sign.times[4..8].fill(0xFF);
        assert_eq!(sign.ask(b"BA", 0, 1), Ok(Asked::Never), "{bytes:02X?}");
        assert_eq!(sign.ask(b"BA", LAST, 1), Ok(Asked::Never), "{bytes:02X?}");
        sign.accept(b"BA", 9, 0, 1);
        assert_eq!(sign.times[4..8], [0; 4]);
        assert_eq!(sign.ask(b"BA", 0, 1), fresh(9));
    }
}

#[test]
fn equal_and_later_times_replace_and_earlier_ones_do_not() {
    let mut sign = Sign::of_case_1();
    sign.accept(b"BC", 100, 1_000, 3);
    sign.accept(b"BC", 200, 1_000, 3);
    assert_eq!(sign.ask(b"BC", 1_000, 1), fresh(200));
    let earlier = Report {
        level: 300,
        time: 999,
    };
    sign.assert_kept(b"BC", earlier, Err(refusal(18, 0)));
    assert_eq!(sign.ask(b"BC", 1_000, 1), fresh(200));
    sign.accept(b"BC", 400, 1_001, 3);
    assert_eq!(sign.ask(b"BC", 1_001, 1), fresh(400));
    assert_eq!(sign.ask(b"BC", 1_000, 1), Err(refusal(19, 0)));
}

/// Each line has a last time of its own.
#[test]
fn another_line_is_not_earlier() {
    let mut sign = Sign::of_case_1();
    sign.accept(b"DA", 1, LAST, 0);
    sign.accept(b"BA", 2, 0, 1);
    assert_eq!(sign.ask(b"BA", 0, 1), fresh(2));
    assert_eq!(sign.ask(b"DA", LAST, 1), fresh(1));
    assert_eq!(sign.ask(b"BB", 0, 1), Ok(Asked::Never));
}

/// An age of the limit is fresh, one second more is stale, at both edges of the limits.
#[test]
fn fresh_and_stale() {
    let mut sign = Sign::of_case_1();
    sign.accept(b"BB", -7, 5_000, 2);
    for limit in [1, 2, 65_536, 86_399, LONGEST_LIMIT] {
        for age in [0, 1, limit] {
            assert_eq!(sign.ask(b"BB", 5_000 + age, limit), fresh(-7));
        }
        for age in [limit + 1, 2 * limit + 5, 86_401, LAST - 5_000] {
            let expected = stale(-7, age);
            assert_eq!(sign.ask(b"BB", 5_000 + age, limit), expected);
        }
    }
}

#[test]
fn the_first_and_the_last_time() {
    let mut sign = Sign::of_case_1();
    sign.accept(b"DA", 1, 0, 0);
    assert_eq!(sign.ask(b"DA", 0, 1), fresh(1));
    assert_eq!(sign.ask(b"DA", LONGEST_LIMIT, LONGEST_LIMIT), fresh(1));
    assert_eq!(sign.ask(b"DA", LAST, LONGEST_LIMIT), stale(1, LAST));
    sign.accept(b"DA", 2, LAST, 0);
    sign.accept(b"DA", 3, LAST, 0);
    assert_eq!(sign.ask(b"DA", LAST, 1), fresh(3));
    assert_eq!(sign.ask(b"DA", LAST - 1, 1), Err(refusal(19, 0)));
    assert_eq!(sign.ask(b"DA", 0, 1), Err(refusal(19, 0)));
    for time in [0, LAST - 1] {
        let earlier = Report { level: 4, time };
        sign.assert_kept(b"DA", earlier, Err(refusal(18, 0)));
    }
}

/// A report changes the four bytes of its line in each list and no other, whatever the others hold. Every byte of the
/// lists is 99 hex before it, which is no level; every byte of the report is another.
#[test]
fn a_report_changes_four_bytes_of_each_list() {
    for (line, code) in [b"DA", b"BA", b"BB", b"BC"].into_iter().enumerate() {
        let mut sign = Sign::of_case_1();
        sign.levels.fill(0x99);
        sign.times.fill(0x99);
        sign.accept(code, -20_000, 16_909_060, line);
        for byte in 0..16 {
            let here = byte / 4 == line;
            let level = [0xE0, 0xB1, 0xFF, 0xFF][byte % 4];
            let time = [4, 3, 2, 1][byte % 4];
            assert_eq!(sign.levels[byte], if here { level } else { 0x99 });
            assert_eq!(sign.times[byte], if here { time } else { 0x99 });
        }
    }
}

/// AA lands on an unassigned vertex and DB on BB's line: document 01's cases 2 and 3.
#[test]
fn a_strangers_report_changes_nothing() {
    let mut sign = Sign::of_case_1();
    sign.accept(b"BB", 11, 50, 2);
    let report = Report {
        level: 12,
        time: 60,
    };
    for code in [b"AA", b"DB"] {
        sign.assert_kept(code, report, Ok(Reported::Unknown));
        assert_eq!(sign.ask(code, 60, 1), Ok(Asked::Unknown));
    }
    assert_eq!(sign.ask(b"BB", 60, 10), fresh(11));
}

/// Without codes there are no lines, and both lists are empty.
#[test]
fn a_sign_without_lines() {
    let mut sign = Sign::cleared(directory(&[], 2, 4, &diagonal(2)), 0);
    let report = Report { level: 1, time: 1 };
    sign.assert_kept(b"BA", report, Ok(Reported::Unknown));
    assert_eq!(sign.ask(b"BA", 1, 1), Ok(Asked::Unknown));
    sign.levels = vec![0x30, 0x75, 0, 0];
    sign.assert_kept(b"BA", report, Err(refusal(23, 0)));
    assert_eq!(sign.ask(b"BA", 1, 1), Err(refusal(23, 0)));
}

/// Code k of these 1,024 has line k (`edges.rs` works it out), so that the last one has the bytes 4,092 to 4,095.
#[test]
fn the_most_lines() {
    let codes = many_codes(1_024);
    let file = directory(&lent(&codes), 3, 1_365, &star_weights(3));
    let mut sign = Sign::cleared(file, 1_024);
    assert_eq!((sign.levels.len(), sign.times.len()), (4_096, 4_096));
    let before = sign.clone();
    sign.accept(&codes[1_023], 258, 772, 1_023);
    assert_eq!(sign.levels[4_092..], [2, 1, 0, 0]);
    assert_eq!(sign.times[4_092..], [4, 3, 0, 0]);
    assert_eq!(sign.levels[..4_092], before.levels[..4_092]);
    assert_eq!(sign.times[..4_092], before.times[..4_092]);
    assert_eq!(sign.ask(&codes[1_023], 772, 1), fresh(258));
    assert_eq!(sign.ask(&codes[1_022], 772, 1), Ok(Asked::Never));
}

/// The plain map by hand: codes alone, in the order of the lines.
#[test]
fn the_plain_map() {
    let mut map = PlainMap::new(vec![b"DA".to_vec(), b"BA".to_vec()]);
    let report = |level, time| Report { level, time };
    assert_eq!(map.ask(b"BA", 5, 1), Ok(Asked::Never));
    assert_eq!(map.report(b"BA", report(-4, 5)), Ok(Reported::Accepted(1)));
    assert_eq!(map.report(b"BA", report(-3, 5)), Ok(Reported::Accepted(1)));
    assert_eq!(map.report(b"BA", report(-2, 4)), Err(refusal(18, 0)));
    assert_eq!(map.report(b"BA", report(20_001, 4)), Err(refusal(17, 0)));
    assert_eq!(map.report(b"AA", report(20_001, 4)), Ok(Reported::Unknown));
    assert_eq!(map.report(b"", report(20_001, 4)), Err(refusal(16, 0)));
    assert_eq!(map.ask(b"BA", 6, 1), fresh(-3));
    assert_eq!(map.ask(b"BA", 7, 1), stale(-3, 2));
    assert_eq!(map.ask(b"BA", 4, 1), Err(refusal(19, 0)));
    assert_eq!(map.ask(b"BA", 4, 0), Err(refusal(22, 0)));
    assert_eq!(map.ask(b"AA", 4, 86_401), Err(refusal(22, 0)));
    assert_eq!(map.ask(b"AA", 4, 86_400), Ok(Asked::Unknown));
    assert_eq!(map.ask(&[0; 33], 4, 0), Err(refusal(16, 0)));
    assert_eq!(map.ask(b"DA", 4, 1), Ok(Asked::Never));
}
