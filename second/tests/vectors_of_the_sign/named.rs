//! The answers to the vectors that have a name and are not refused. In case 1's file DA, BA, BB and BC have the lines 0
//! to 3.

use crate::{to_questions, to_reports};

#[test]
fn at_first() {
    let words = "cleared lists: nothing is heard";
    assert_eq!(to_questions(words)[..8], ["never"; 8]);
    assert_eq!(to_questions(words)[8..], ["unknown"]);
}

#[test]
fn levels() {
    let words = "levels: both edges, zero, and what changes their bytes";
    assert_eq!(to_reports(words), ["accepted 1"; 13]);
    let fresh = [
        "fresh -20000",
        "fresh 20000",
        "fresh 0",
        "fresh -1",
        "fresh 1",
        "fresh 127",
        "fresh -128",
        "fresh 128",
        "fresh -129",
        "fresh 255",
        "fresh -256",
        "fresh 256",
        "fresh -257",
    ];
    assert_eq!(to_questions(words), fresh);
}

/// Each time is asked for at itself and a second before. Before 0 stands the last time of all: then the report of time 0
/// is 4,294,967,295 seconds old.
#[test]
fn times() {
    let words = "times: both ends, and what changes their bytes";
    assert_eq!(to_reports(words), ["accepted 2"; 8]);
    let questions = to_questions(words);
    assert_eq!(questions[..2], ["fresh 5", "stale 5 4294967295"]);
    assert_eq!(questions[2..], ["fresh 5", "refused 19 0"].repeat(7));
}

#[test]
fn equal_times() {
    let words = "an equal time replaces, an earlier one does not";
    let reports = [
        "accepted 3",
        "accepted 3",
        "refused 18 0",
        "refused 18 0",
        "accepted 3",
        "accepted 0",
    ];
    assert_eq!(to_reports(words), reports);
    let questions = [
        "fresh 1", "fresh 2", "fresh 2", "fresh 2", "fresh 5", "fresh 6",
    ];
    assert_eq!(to_questions(words), questions);
}

/// The ages 0, one below the limit, the limit, one above it, and what is left to the last time of all.
#[test]
fn ages() {
    let words = "ages: none, the limit, a second more, and the oldest";
    assert_eq!(to_reports(words), ["accepted 0"; 2]);
    let mut expected = Vec::new();
    for oldest in [4_294_967_295_u32, 4_294_962_295] {
        for over in [2, 65_537, 86_400, 86_401] {
            expected.extend(["fresh -9"; 3].map(str::to_string));
            expected.extend([over, oldest].map(|age| format!("stale -9 {age}")));
        }
    }
    assert_eq!(to_questions(words), expected);
}

#[test]
fn a_time_under_no_level() {
    let words = "a time under a level that is out of range is ignored";
    assert_eq!(to_reports(words), ["accepted 1"; 9]);
    assert_eq!(to_questions(words), ["never", "fresh 8"].repeat(9));
}

/// Each line in turn is the only one that was heard.
#[test]
fn among_any_bytes() {
    let words = "each line in lists of any bytes";
    let reports = ["accepted 0", "accepted 1", "accepted 2", "accepted 3"];
    assert_eq!(to_reports(words), reports);
    for (k, &answer) in to_questions(words).iter().enumerate() {
        let heard = k / 4 == k % 4;
        assert_eq!(answer, if heard { "fresh -20000" } else { "never" });
    }
}

/// BB is heard at 50, and after four strangers, at 60 with a limit of 10, still as it was.
#[test]
fn strangers() {
    let reports = ["accepted 2", "unknown", "unknown", "unknown", "unknown"];
    assert_eq!(to_reports("strangers"), reports);
    let questions = ["unknown", "unknown", "unknown", "unknown", "fresh 11"];
    assert_eq!(to_questions("strangers"), questions);
}

#[test]
fn no_lines() {
    assert_eq!(to_reports("no lines"), ["unknown"]);
    assert_eq!(to_questions("no lines"), ["unknown"]);
    assert_eq!(to_reports("no lines, but a place"), ["refused 23 0"]);
    assert_eq!(to_questions("no lines, but a place"), ["refused 23 0"]);
}

/// Line k is heard at time k and asked for at 1,023 with a limit of 1,022: only line 0 is a second too old.
#[test]
fn the_most_lines() {
    let reports = [0, 1, 255, 256, 1_022, 1_023].map(|line| format!("accepted {line}"));
    assert_eq!(to_reports("1,024 lines"), reports);
    let mut questions = ["fresh -2"; 6];
    questions[0] = "stale -2 1023";
    assert_eq!(to_questions("1,024 lines"), questions);
    let words = "1,024 lines, and lists that are a place or a byte too short or too long";
    assert_eq!(to_reports(words), ["refused 23 0"; 4]);
    assert_eq!(to_questions(words), ["refused 23 0"; 4]);
}
