//! The vectors of the sign, read and answered once more: what is held as plain bytes, the calls by what they mean
//! (`common/meaning.rs`).

use crate::common::checksums::checksums;
use crate::common::meaning::{lists_after, of_a_question, of_a_report};
use crate::common::signs::Sign;
use second::sign::{Asked, Report, Reported};
use second::text::bytes_of_hex;
use second::Refusal;

/// The answer to each line, empty where there is none.
pub fn replayed(vectors: &str) -> Vec<String> {
    let mut sign = Sign::cleared(Vec::new(), 0);
    vectors
        .lines()
        .map(|line| {
            let words: Vec<&str> = line.split(' ').collect();
            match words[..] {
                ["#", ..] => String::new(),
                ["A", code, level, time] => {
                    let (level, time) = (parsed(level), parsed(time));
                    reported(&mut sign, &bytes(code), Report { level, time })
                }
                ["Q", code, now, limit] => asked(of_a_question(
                    &sign,
                    &bytes(code),
                    parsed(now),
                    parsed(limit),
                )),
                _ => {
                    change(&mut sign, &words);
                    String::new()
                }
            }
        })
        .collect()
}

fn change(sign: &mut Sign, words: &[&str]) {
    match *words {
        ["C", length] => sign.file.resize(parsed(length), 0),
        ["P", place, put] => put_bytes(&mut sign.file, place, put),
        ["K", places] => {
            let places: usize = parsed(places);
            sign.levels = [0x30, 0x75, 0, 0].repeat(places);
            sign.times = vec![0; 4 * places];
        }
        ["V", length] => sign.levels.resize(parsed(length), 0),
        ["U", length] => sign.times.resize(parsed(length), 0),
        ["X", place, put] => put_bytes(&mut sign.levels, place, put),
        ["Y", place, put] => put_bytes(&mut sign.times, place, put),
        _ => panic!("no vector of the sign: {words:?}"),
    }
}

fn put_bytes(held: &mut [u8], place: &str, put: &str) {
    let place: usize = parsed(place);
    for (k, byte) in bytes(put).into_iter().enumerate() {
        held[place + k] = byte;
    }
}

fn reported(sign: &mut Sign, code: &[u8], report: Report) -> String {
    let answer = of_a_report(sign, code, report);
    *sign = lists_after(sign, answer, report);
    let words = match answer {
        Ok(Reported::Accepted(line)) => format!("accepted {line}"),
        Ok(Reported::Unknown) => "unknown".to_string(),
        Err(refusal) => refused(refusal),
    };
    let [one, two] = checksums(&sign.levels);
    let [three, four] = checksums(&sign.times);
    format!("{words} {one} {two} {three} {four}\n")
}

fn asked(answer: Result<Asked, Refusal>) -> String {
    let words = match answer {
        Ok(Asked::Never) => "never".to_string(),
        Ok(Asked::Fresh { level }) => format!("fresh {level}"),
        Ok(Asked::Stale { level, age }) => format!("stale {level} {age}"),
        Ok(Asked::Unknown) => "unknown".to_string(),
        Err(refusal) => refused(refusal),
    };
    words + "\n"
}

fn refused(refusal: Refusal) -> String {
    format!("refused {} {}", refusal.number, refusal.place)
}

fn bytes(digits: &str) -> Vec<u8> {
    bytes_of_hex(digits.as_bytes()).expect("hex digits")
}

fn parsed<T: std::str::FromStr>(word: &str) -> T {
    word.parse().ok().expect("a number")
}
