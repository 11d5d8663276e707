//! The commands as a user calls them, in a folder of their own that is removed afterwards. The
//! expected listings and numbers are those of document 01's cases; exit statuses and the places
//! of words are the README's.

use std::fs;
use std::io::Write;
use std::path::PathBuf;
use std::process::{Command, Output, Stdio};

/// A folder for one test.
struct Folder(PathBuf);

impl Folder {
    fn new(name: &str) -> Folder {
        let path = std::env::temp_dir().join(format!("second-{}-{name}", std::process::id()));
        fs::create_dir(&path).expect("the folder is new");
        Folder(path)
    }

    /// A folder with the codes and weights of case 1.
    fn of_case_1(name: &str) -> Folder {
        let folder = Folder::new(name);
        folder.write("codes", b"BA\nBB\nDA\nBC\n");
        folder.write("weights", case_1_weights().as_bytes());
        folder
    }

    /// A folder with the directory file of case 1.
    fn with_directory(name: &str) -> Folder {
        let folder = Folder::of_case_1(name);
        assert_done(&folder.build(), "");
        folder
    }

    fn write(&self, name: &str, bytes: &[u8]) {
        fs::write(self.0.join(name), bytes).expect("the folder can be written");
    }

    fn names(&self) -> Vec<String> {
        let mut names: Vec<String> = fs::read_dir(&self.0)
            .expect("the folder can be read")
            .map(|entry| entry.expect("an entry").file_name())
            .map(|name| name.to_string_lossy().into_owned())
            .collect();
        names.sort();
        names
    }

    /// Runs the command in this folder with nothing on standard input.
    fn second(&self, arguments: &[&str]) -> Output {
        self.second_with_input(arguments, b"")
    }

    fn second_with_input(&self, arguments: &[&str], input: &[u8]) -> Output {
        let mut child = Command::new(env!("CARGO_BIN_EXE_second"))
            .args(arguments)
            .current_dir(&self.0)
            .stdin(Stdio::piped())
            .stdout(Stdio::piped())
            .stderr(Stdio::piped())
            .spawn()
            .expect("the command starts");
        let mut standard_input = child.stdin.take().expect("a piped standard input");
        if !input.is_empty() {
            standard_input
                .write_all(input)
                .expect("the command reads all of its input");
        }
        drop(standard_input);
        child.wait_with_output().expect("the command ends")
    }

    fn build(&self) -> Output {
        self.second(&["build", "codes", "weights", "2", "4", "case1"])
    }
}

impl Drop for Folder {
    fn drop(&mut self) {
        fs::remove_dir_all(&self.0).expect("the folder can be removed");
    }
}

/// 64 weights over two lines with p(0,0) = 1 and p(1,1) = 1, blanks of both kinds between them.
fn case_1_weights() -> String {
    let zeros = " 0".repeat(30);
    format!("1 0{zeros}\n\t0  1{zeros}\n")
}

fn words(output: &Output) -> String {
    String::from_utf8_lossy(&output.stderr).into_owned()
}

/// Checks a success: the text and nothing on standard error.
fn assert_done(output: &Output, text: &str) {
    assert_eq!(words(output), "");
    assert_eq!(String::from_utf8_lossy(&output.stdout), text);
    assert_eq!(output.status.code(), Some(0));
}

/// Checks a failure: exit status, text, and that each of some words stands on standard error.
fn assert_failed(output: &Output, status: i32, text: &str, expected_words: &[&str]) {
    assert_eq!(output.status.code(), Some(status), "{}", words(output));
    assert_eq!(String::from_utf8_lossy(&output.stdout), text);
    for expected in expected_words {
        let words = words(output);
        assert!(words.contains(expected), "`{expected}` is not in: {words}");
    }
}

#[test]
fn build_and_list_case_1() {
    let folder = Folder::with_directory("case-1");
    assert_eq!(folder.names(), ["case1", "codes", "weights"]);
    let file = fs::read(folder.0.join("case1")).expect("the directory file");
    assert_eq!(file.len(), 285);
    let listing = "0 4441\n1 4241\n2 4242\n3 4243\n";
    assert_done(&folder.second(&["list", "case1"]), listing);
    assert_done(&folder.second_with_input(&["list"], &file), listing);
    assert_done(&folder.second(&["open", "case1"]), "opened 4 2 4\n");
}

#[test]
fn building_again_replaces_the_file() {
    let folder = Folder::with_directory("again");
    folder.write("codes", b"0x4241");
    assert_done(&folder.build(), "");
    assert_done(&folder.second(&["list", "case1"]), "0 4241\n");
}

#[test]
fn no_codes_list_to_nothing() {
    let folder = Folder::of_case_1("no-codes");
    folder.write("codes", b"");
    assert_done(&folder.build(), "");
    assert_done(&folder.second(&["list", "case1"]), "");
    assert_done(&folder.second(&["lookup", "case1", "AA"]), "unknown\n");
}

#[test]
fn lookup_and_show() {
    let folder = Folder::with_directory("lookup");
    assert_done(&folder.second(&["lookup", "case1", "BB"]), "at 2\n");
    assert_done(&folder.second(&["lookup", "case1", "0x4242"]), "at 2\n");
    assert_done(&folder.second(&["lookup", "case1", "DB"]), "unknown\n");
    let empty = folder.second(&["lookup", "case1", ""]);
    assert_failed(&empty, 1, "refused 16 0\n", &["empty or over 32 bytes"]);
    assert_done(&folder.second(&["show", "case1", "3"]), "4243\n");
    for no_line in ["4", "99999999999999999999999"] {
        assert_done(&folder.second(&["show", "case1", no_line]), "\n");
    }
}

/// 9 for a file that was cut, 9 for one that goes on, and 9 for no input at all.
#[test]
fn files_that_do_not_open() {
    let folder = Folder::with_directory("not-open");
    let file = fs::read(folder.0.join("case1")).expect("the directory file");
    folder.write("cut", &file[..284]);
    let expected = "refused 9 0\n";
    let explained = ["refusal 9, place 0", "length"];
    assert_failed(&folder.second(&["list", "cut"]), 1, expected, &explained);
    assert_failed(&folder.second(&["open", "cut"]), 1, expected, &explained);
    let lookup = folder.second(&["lookup", "cut", "BA"]);
    assert_failed(&lookup, 1, expected, &explained);
    assert_failed(&folder.second(&["list"]), 1, expected, &explained);
    let long = [&file[..], &[0; 100_000]].concat();
    let listed = folder.second_with_input(&["list"], &long);
    assert_failed(&listed, 1, expected, &explained);
    assert_done(&folder.second(&["show", "cut", "0"]), "\n");
}

/// Checks that case 1 with other codes or weights is refused in words and leaves nothing behind.
fn assert_build_fails(name: &str, codes: &[u8], weights: &str, expected_words: &[&str]) {
    let folder = Folder::new(name);
    folder.write("codes", codes);
    folder.write("weights", weights.as_bytes());
    assert_failed(&folder.build(), 1, "", expected_words);
    assert_eq!(folder.names(), ["codes", "weights"]);
}

/// Cases 6 and 8, codes of 33 and of no bytes, and 1,025 codes.
#[test]
fn refused_builds_in_words() {
    let weights = case_1_weights();
    let cases: [(&str, &[u8], &[&str]); 5] = [
        (
            "cyclic",
            b"BA\nBB\nDA\nDB\nBC\n",
            &["refusal 8, place 4", "cyclic", "4 of the 5 codes are left"],
        ),
        (
            "repeated",
            b"BA\nBB\n0x4241\n",
            &["refusal 7, place 2", "equals", "line 3", "0x4241"],
        ),
        (
            "long",
            b"BA\nBBBBBBBBBBBBBBBBBBBBBBBBBBBBBBBBB\n",
            &["refusal 5, place 1", "line 2", "`BBBBBBBB"],
        ),
        (
            "empty",
            b"BA\n\nDA\n",
            &["refusal 5, place 1", "line 2", "``"],
        ),
        (
            "many",
            &b"B\n".repeat(1_025),
            &["refusal 4, place 0", "1,024"],
        ),
    ];
    for (name, codes, expected_words) in cases {
        assert_build_fails(name, codes, &weights, expected_words);
    }
}

/// A single code of 70,000 bytes: its end does not fit in two bytes, but it is refused as a code
/// over 32 bytes, at its own place.
#[test]
fn a_run_too_long_for_its_ends() {
    let codes = [b"BA\n", &[b'B'; 70_000][..], b"\nDA\n"].concat();
    let expected = ["refusal 5, place 1", "line 2", "70000 bytes in all"];
    assert_build_fails("long-run", &codes, &case_1_weights(), &expected);
}

#[test]
fn text_that_cannot_be_read() {
    let weights = case_1_weights();
    let codes: [(&str, &[u8], &str); 4] = [
        ("return", b"BA\nBB\r\n", "line 2 holds a carriage return"),
        ("lone-return", b"BA\rBB\n", "line 1 holds a carriage return"),
        (
            "odd",
            b"BA\n0x424\n",
            "line 2 has an odd number of hex digits",
        ),
        ("no-hex", b"0x4g\n", "line 1 has `g` among its hex digits"),
    ];
    for (name, codes, expected) in codes {
        assert_build_fails(name, codes, &weights, &["codes: ", expected]);
    }
    let bad_weights = [
        (
            "over",
            "1 0\n0 65536\n",
            "line 2: weight number 3 (from 0) is `65536`",
        ),
        ("minus", "1 -1", "line 1: weight number 1 (from 0) is `-1`"),
        (
            "weight-return",
            "1\r\n",
            "line 1: weight number 0 (from 0) is `1\\r`",
        ),
    ];
    for (name, weights, expected) in bad_weights {
        assert_build_fails(name, b"BA\n", weights, &["weights: ", expected]);
    }
    let few = ["refusal 3, place 0", "there are 2 weights"];
    assert_build_fails("few", b"BA\n", "1 65535", &few);
}

/// 65,535 is the largest weight, and an arity or part size of any number of digits is a number.
#[test]
fn numbers_at_their_edges() {
    let folder = Folder::of_case_1("edges");
    folder.write("weights", "65535 ".repeat(64).as_bytes());
    folder.write("codes", b"BA");
    assert_done(&folder.build(), "");
    let huge = "184467440737095516160000002";
    let arity = folder.second(&["build", "codes", "weights", huge, "4", "new"]);
    assert_failed(&arity, 1, "", &["refusal 1, place 0"]);
    let part_size = folder.second(&["build", "codes", "weights", "2", huge, "new"]);
    assert_failed(&part_size, 1, "", &["refusal 2, place 0"]);
    assert_eq!(folder.names(), ["case1", "codes", "weights"]);
}

/// Vectors are answered from a file and from standard input; a line that is none is named.
#[test]
fn vectors_and_their_trial() {
    let folder = Folder::new("trial");
    let vectors = b"C 6\nO\nN 4 2 4\n";
    folder.write("vectors", vectors);
    let answers = "refused 9 0\nlength 285\n";
    assert_done(&folder.second(&["trial", "vectors"]), answers);
    assert_done(&folder.second_with_input(&["trial"], vectors), answers);
    let wrong = folder.second_with_input(&["trial"], b"O\nX 1\n");
    assert_failed(&wrong, 1, "", &["line 2 is no vector: `X 1`"]);
    let made = folder.second(&["vectors", "1", "0"]);
    assert!(made.stdout.starts_with(b"# vectors of seed 1"));
    assert_eq!(made.status.code(), Some(0), "{}", words(&made));
    let made = folder.second(&["builds", "1", "0"]);
    assert!(made.stdout.starts_with(b"# vectors of building of seed 1"));
    assert_eq!(made.status.code(), Some(0), "{}", words(&made));
    let made = folder.second(&["signs", "1", "0"]);
    assert!(made.stdout.starts_with(b"# vectors of the sign of seed 1"));
    assert_eq!(made.status.code(), Some(0), "{}", words(&made));
}

/// `tools/try-callers` runs the command with the library.
#[cfg(not(feature = "library"))]
#[test]
fn compare_says_that_it_has_no_library() {
    let folder = Folder::new("compare");
    for arguments in [
        &["compare"][..],
        &["compare", "10"],
        &["compare", "10", "random"],
    ] {
        let output = folder.second(arguments);
        assert_failed(&output, 1, "", &["built without the library"]);
    }
}

#[test]
fn wrong_calls() {
    let folder = Folder::with_directory("wrong");
    let calls: [(&[&str], &str); 19] = [
        (&[], "a command is missing"),
        (&["frobnicate"], "unknown command `frobnicate`"),
        (&["build"], "build takes another number of arguments"),
        (&["open"], "open takes another number of arguments"),
        (&["open", "case1", "case1"], "open takes"),
        (&["list", "case1", "case1"], "list takes"),
        (&["vectors", "1"], "vectors takes"),
        (&["vectors", "one", "2"], "SEED is `one`"),
        (&["builds", "1"], "builds takes"),
        (&["builds", "1", "two"], "LISTS is `two`"),
        (&["signs", "1"], "signs takes"),
        (&["signs", "1", "two"], "TRACES is `two`"),
        (&["compare", "1", "2", "3"], "compare takes"),
        (&["compare", "some"], "CALLS is `some`"),
        (&["compare", "1", "soon"], "SEED is `soon`"),
        (&["show", "case1", "first"], "LINE is `first`"),
        (&["show", "case1", "+1"], "LINE is `+1`"),
        (
            &["build", "codes", "weights", "two", "4", "new"],
            "R is `two`",
        ),
        (&["lookup", "case1", "0x4"], "CODE has an odd number"),
    ];
    for (arguments, expected) in calls {
        let output = folder.second(arguments);
        assert_failed(&output, 2, "", &[expected, "usage:"]);
    }
    assert_eq!(folder.names(), ["case1", "codes", "weights"]);
}

#[test]
fn files_that_are_missing_or_in_the_way() {
    let folder = Folder::of_case_1("missing");
    for arguments in [
        &["open", "nothing"][..],
        &["list", "nothing"],
        &["lookup", "nothing", "BA"],
        &["show", "nothing", "0"],
        &["build", "nothing", "weights", "2", "4", "new"],
        &["build", "codes", "nothing", "2", "4", "new"],
    ] {
        let output = folder.second(arguments);
        assert_failed(&output, 1, "", &["nothing cannot be read"]);
    }
    fs::create_dir(folder.0.join("folder")).expect("a new folder");
    for (place, words) in [
        (
            "folder",
            "folder cannot be written: it is not a regular file",
        ),
        ("no/where", "no/where cannot be written"),
    ] {
        let output = folder.second(&["build", "codes", "weights", "2", "4", place]);
        assert_failed(&output, 1, "", &[words]);
    }
    assert_eq!(folder.names(), ["codes", "folder", "weights"]);
}
