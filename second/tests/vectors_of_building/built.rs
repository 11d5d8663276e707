//! What builds: document 01's cases, the lists that pin more, and the sizes at their edges.

use crate::common::diagonal;
use crate::{to, to_builds};
use second::text::hex;
use std::collections::BTreeSet;

/// A whole buffer in hex: the file, from its records' contents in hex, and then these bytes.
fn shown(
    header: &str,
    weights: &[u16],
    values: &str,
    rank: &str,
    codes: &[&[u8]],
    after: &str,
) -> String {
    let weights: String = weights
        .iter()
        .map(|weight| hex(&weight.to_le_bytes()))
        .collect();
    let keys: String = codes
        .iter()
        .map(|code| format!("4b59{:02x}{:0<64}", code.len(), hex(code)))
        .collect();
    format!("shown 4844{header}5754{weights}4756{values}524b{rank}{keys}{after}")
}

/// What is built with so many waiting at once at most, and read of the file: the n, r and v, the lines of its
/// codes and strangers, and the listing.
fn assert_read(words: &str, most: usize, sizes: &str, found: &[&str], listing: &str) {
    assert_eq!(to_builds(words), [format!("built {most}")], "{words}");
    assert_eq!(to("O", words), [format!("opened {sizes}")], "{words}");
    assert_eq!(to("H", words), [format!("opened {sizes}")], "{words}");
    assert_eq!(to("L", words), found, "{words}");
    assert_eq!(to("T", words), [listing], "{words}");
}

/// Reading 36: 3 wait at most. The buffer counts up from A5 before the build, so that byte 285 is
/// 450 - 256, which is C2.
#[test]
fn case_1_with_2_and_3() {
    let words = "case 1, and the strangers of cases 2 and 3";
    let found = ["at 1", "at 2", "at 0", "at 3", "unknown", "unknown"];
    let listing = "0 4441\n1 4241\n2 4242\n3 4243";
    assert_read(words, 3, "4 2 4", &found, listing);
    let codes: [&[u8]; 4] = [b"DA", b"BA", b"BB", b"BC"];
    let file = shown(
        "0400020400",
        &diagonal(2),
        "885a",
        "0000",
        &codes,
        "c2c3c4c5c6",
    );
    assert_eq!(to("D", words), [file]);
    let lines = ["shown 4441", "shown 4241", "shown 4242", "shown 4243"];
    assert_eq!(to("S", words)[..4], lines);
    assert_eq!(to("S", words)[4..], ["nothing", "nothing"]);
}

/// Case 4: BA (2,5) gives vertex 2 the value 0, so that the values are 2 2 0 2 and 2 2 2 2. Case 9:
/// all values are 2. Case 10: 0 3 3. A code by itself waits from the start. The bytes after the files are
/// 165 + 180 - 256, which is 59 in hex, 165 + 145 - 256 (36) and 165 + 243 - 256 (98).
#[test]
fn cases_4_9_and_10() {
    assert_read("case 4", 1, "1 2 4", &["at 0", "unknown"], "0 4241");
    let file = shown(
        "0100020400",
        &diagonal(2),
        "8aaa",
        "0000",
        &[b"BA"],
        "595a5b5c5d",
    );
    assert_eq!(to("D", "case 4"), [file]);
    assert_read("case 9", 0, "0 2 4", &["unknown"], "");
    let file = shown(
        "0000020400",
        &diagonal(2),
        "aaaa",
        "0000",
        &[],
        "363738393a",
    );
    assert_eq!(to("D", "case 9"), [file]);
    assert_read("case 10", 1, "1 3 1", &["at 0", "unknown"], "0 4241");
    let file = shown("0100030100", &[0; 96], "3c", "0000", &[b"BA"], "98999a9b9c");
    assert_eq!(to("D", "case 10"), [file]);
}

/// A refused build leaves a buffer that counts up from A5, of the file's length and five bytes.
#[test]
fn cases_5_to_8_and_10() {
    for (words, answer, length) in [
        ("case 5", "refused 8 4", 285),
        ("case 6", "refused 8 4", 320),
        ("case 7", "refused 8 2", 215),
        ("case 8", "refused 7 2", 250),
        ("case 10, cyclic", "refused 8 2", 278),
    ] {
        assert_eq!(to_builds(words), [answer]);
        let buffer: Vec<u8> = (0..length + 5).map(|i| (0xA5 + i) as u8).collect();
        assert_eq!(to("D", words), [format!("shown {}", hex(&buffer))]);
    }
}

/// The two codes of the largest parts, BA and three bytes 255, 254 and 253, share no vertex: both wait
/// from the start.
#[test]
fn cases_11_and_12() {
    assert_eq!(to_builds("case 11: 32 bytes"), ["built 1"]);
    assert_eq!(to("L", "case 11: 32 bytes"), ["at 0", "refused 16 0"]);
    assert_eq!(
        to_builds("case 11: 33 bytes"),
        ["refused 5 0", "refused 5 2"]
    );
    assert_eq!(to_builds("case 11: r = 2, v = 2048"), ["built 2"]);
    assert_eq!(to_builds("case 11: r = 2, v = 2049"), ["refused 2 0"]);
    assert_eq!(to_builds("case 11: r = 3, v = 1365"), ["built 2"]);
    assert_eq!(to_builds("case 11: r = 3, v = 1366"), ["refused 2 0"]);
    let (built, short) = ("built 3", "refused 6 285");
    assert_eq!(
        to_builds("case 12"),
        [built, short, built, short, short, built]
    );
    assert_eq!(
        to_builds("case 12, in what a build has left"),
        [built, short]
    );
}

/// The lines are the design's; `tests/witnesses.rs` works out the values and who waits. For r = 3, v = 5 they
/// are 2 0 0 3, 3 3 3 1, 1 3 3 3 and 3 3 3; for v = 2 they are 0 0 1 3 and 3 3. For r = 2, v = 100 the
/// vertices 10 and 90 have 0, in the bytes 2 and 22 of 50. The bytes after the files are 165 + 386 - 512
/// (27), 165 + 314 - 256 (DF) and 165 + 269 - 256 (B2).
#[test]
fn the_lists_that_pin_more() {
    let words = "r = 3, v = 5: the order j = 0, 1, .. decides the lines";
    let found = ["at 2", "at 1", "at 3", "at 4", "at 0", "unknown"];
    let listing = "0 464445\n1 424145\n2 434646\n3 434344\n4 424446";
    assert_read(words, 3, "5 3 5", &found, listing);
    let codes: [&[u8]; 5] = [b"FDE", b"BAE", b"CFF", b"CCD", b"BDF"];
    let file = shown(
        "0500030500",
        &diagonal(3),
        "c27ffd3f",
        "0000",
        &codes,
        "2728292a2b",
    );
    assert_eq!(to("D", words), [file]);
    let words = "r = 3, v = 2: a code that would join twice in one step";
    let found = ["at 0", "at 1", "at 2", "unknown"];
    let listing = "0 424141\n1 414141\n2 424242";
    assert_read(words, 2, "3 3 2", &found, listing);
    let codes: [&[u8]; 3] = [b"BAA", b"AAA", b"BBB"];
    let file = shown(
        "0300030200",
        &diagonal(3),
        "d00f",
        "0000",
        &codes,
        "dfe0e1e2e3",
    );
    assert_eq!(to("D", words), [file]);
    let words = "r = 2, v = 100: rank entries 0 1 2 2";
    let found = ["at 0", "at 1", "unknown"];
    assert_read(words, 2, "2 2 100", &found, "0 0a05\n1 5a06");
    let values = format!("aaaa8a{}8a{}", "aa".repeat(19), "aa".repeat(27));
    let codes: [&[u8]; 2] = [b"\x0A\x05", b"\x5A\x06"];
    let rank = "0000010002000200";
    let file = shown(
        "0200026400",
        &diagonal(2),
        &values,
        rank,
        &codes,
        "b2b3b4b5b6",
    );
    assert_eq!(to("D", words), [file]);
}

/// Any two codes share both or all three vertices, so that one builds and two do not.
#[test]
fn parts_of_one_vertex_and_no_codes() {
    for words in ["v = 1: r = 2", "v = 1: r = 3"] {
        assert_eq!(to_builds(words), ["built 1", "refused 8 2"]);
        assert_eq!(to("L", words), ["at 0", "unknown"]);
    }
    for (r, v) in [
        (2, 1),
        (3, 1),
        (3, 2),
        (3, 3),
        (2, 32),
        (2, 2_048),
        (3, 1_365),
    ] {
        let words = format!("no codes: r = {r}, v = {v}");
        let sizes = format!("0 {r} {v}");
        assert_read(&words, 0, &sizes, &["unknown", "unknown"], "");
    }
}

/// The codes are 32 bytes of 255, 31 of them, and a byte 1. Weights of 0: all name the same
/// vertices. Weights of 1: mod 2,047 the sums 8,160, 7,905 and 1 leave 2,019, 1,764 and 1, and mod
/// 1,365 they leave 1,335, 1,080 and 1. Weights of 65,535 are 31 mod 2,047 and 15 mod 1,365: the
/// residues are 1,179, 1,462 and 31, and 915, 1,185 and 15. No two codes share a vertex, so that
/// each lands in part 0 and the lines are in the order of the residues; and all wait from the start.
#[test]
fn weights_that_are_all_alike() {
    for sizes in ["r = 2, v = 2047", "r = 3, v = 1365"] {
        let zeros = format!("weights of 0: {sizes}");
        assert_eq!(to_builds(&zeros), ["refused 8 3", "built 1"]);
        assert_eq!(to("L", &zeros), ["at 0", "unknown"]);
        let alone = ["at 0", "unknown"];
        let ones = format!("weights of 1: {sizes}");
        assert_eq!(to_builds(&ones), ["built 3", "built 1"]);
        assert_eq!(to("L", &ones)[..3], ["at 2", "at 1", "at 0"]);
        assert_eq!(to("L", &ones)[4..], alone);
        let largest = format!("weights of 65535: {sizes}");
        assert_eq!(to_builds(&largest), ["built 3", "built 1"]);
        assert_eq!(to("L", &largest)[..3], ["at 1", "at 2", "at 0"]);
        assert_eq!(to("L", &largest)[4..], alone);
    }
}

/// The values 8A A2 AA 0A are worked out in `tests/edges.rs`. The length is 13 + 128 + 4 + 2 + 70,
/// and 165 + 217 - 256 is 7E.
#[test]
fn residues() {
    let weights = [[65_535; 32], [300; 32]].concat();
    let codes: [&[u8]; 2] = [b"A", &[255; 32]];
    let file = shown("0200020700", &weights, "8aa2aa0a", "0000", &codes, "7e7f");
    let words = "weights of 65,535 and 300, and v = 7";
    assert_eq!(to("D", words), [file]);
    assert_eq!(to_builds(words), ["built 2"], "no vertex is shared");
}

/// Weight 32·j + i is 7·j + 4·i mod 11. The vertices are (0,11,22), (0,18,25), (4,11,29) and
/// (8,18,28); all codes wait from the start. From the end, the vertices 8, 4 and 0 get 0, and the
/// first code, with 0 and 11 visited, gives vertex 22 the value (2 - 3) mod 3 = 2. So the landing
/// vertices are 22, 0, 4 and 8. A code and the same with a zero byte more have the same sums.
#[test]
fn zero_bytes() {
    let words = "codes with zero bytes, at their end too";
    let found = ["at 3", "at 0", "at 1", "at 2"];
    assert_eq!(to_builds(words), ["built 4"]);
    assert_eq!(to("L", words)[..4], found);
    assert_eq!(to("L", words)[4..], ["unknown"; 4]);
    assert_eq!(to("T", words), ["0 0100\n1 0001\n2 01020000\n3 00"]);
    let words = "a code and the same with a zero byte more";
    assert_eq!(to_builds(words), ["refused 8 2"]);
}

/// Code k has vertex k alone and shares the others with all: it waits from the start and lands on k. The
/// codes are v - 1, v - 4 and so on, so that their lines fall to 0. The stranger's byte is v.
#[test]
fn blocks() {
    for (r, v) in [
        (2, 31),
        (2, 32),
        (2, 33),
        (3, 21),
        (3, 22),
        (2, 64),
        (3, 43),
        (2, 130_usize),
    ] {
        let words = format!("blocks: r = {r}, v = {v}");
        let n = v.div_ceil(3);
        let lines: Vec<String> = (0..n).rev().map(|line| format!("at {line}")).collect();
        assert_eq!(to_builds(&words), [format!("built {n}")]);
        assert_eq!(to("L", &words)[..n], lines);
        assert_eq!(to("L", &words)[n..], ["unknown"]);
    }
}

/// How many wait at most is looked at in `waiting.rs`.
#[test]
fn the_most_codes() {
    for (r, v) in [(2, 1_200), (2, 2_048), (3, 430), (3, 1_365)] {
        let words = format!("1,024 codes: r = {r}, v = {v}");
        assert!(to_builds(&words)[0].starts_with("built "));
        assert_eq!(to("O", &words), [format!("opened 1024 {r} {v}")]);
        let lines: BTreeSet<String> = (0..1_024).map(|line| format!("at {line}")).collect();
        let found = to("L", &words);
        assert_eq!(found.len(), 1_024);
        assert!(found.iter().all(|&line| lines.contains(line)));
        assert_eq!(found.iter().collect::<BTreeSet<_>>().len(), 1_024);
        assert_eq!(to("T", &words)[0].lines().count(), 1_024);
    }
    for answer in to_builds("1,024 codes, cyclic") {
        assert!(answer.starts_with("refused 8 "));
    }
}
