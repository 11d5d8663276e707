//! The words of the trial's answers.

use super::checksums::checksums;
use crate::header::Header;
use crate::listing::refused;
use crate::refusals::{group, meaning, Group, Meaning};
use crate::sign::{Asked, Reported};
use crate::text::hex;
use crate::{Built, Found, Refusal};

pub fn opened(answer: Result<Header, Refusal>) -> String {
    match answer {
        Ok(Header { n, r, v }) => format!("opened {n} {r} {v}"),
        Err(refusal) => refused(&refusal),
    }
}

pub fn found(answer: Found) -> String {
    match answer {
        Found::At(line) => format!("at {line}"),
        Found::Unknown => "unknown".to_string(),
        Found::Refused(refusal) => refused(&refusal),
    }
}

pub fn shown(bytes: &[u8]) -> String {
    if bytes.is_empty() {
        "nothing".to_string()
    } else {
        format!("shown {}", hex(bytes))
    }
}

/// The answer of a build, and the checksums of the buffer as the build has left it.
pub fn built(answer: Result<Built, Refusal>, buffer: &[u8]) -> String {
    let words = match answer {
        Ok(Built { most_waiting }) => format!("built {most_waiting}"),
        Err(refusal) => refused(&refusal),
    };
    words + &summed(buffer)
}

/// The two checksums of bytes, each behind a blank.
fn summed(bytes: &[u8]) -> String {
    let [first, second] = checksums(bytes);
    format!(" {first} {second}")
}

/// The answer to a report, and the checksums of the two lists as the report has left them.
pub fn reported(answer: Result<Reported, Refusal>, levels: &[u8], times: &[u8]) -> String {
    let words = match answer {
        Ok(Reported::Accepted(line)) => format!("accepted {line}"),
        Ok(Reported::Unknown) => "unknown".to_string(),
        Err(refusal) => refused(&refusal),
    };
    words + &summed(levels) + &summed(times)
}

pub fn asked(answer: Result<Asked, Refusal>) -> String {
    match answer {
        Ok(Asked::Never) => "never".to_string(),
        Ok(Asked::Fresh { level }) => format!("fresh {level}"),
        Ok(Asked::Stale { level, age }) => format!("stale {level} {age}"),
        Ok(Asked::Unknown) => "unknown".to_string(),
        Err(refusal) => refused(&refusal),
    }
}

pub fn grouped(number: u8) -> String {
    let group = match group(number) {
        Group::Building => "building",
        Group::Opening => "opening",
        Group::LookingUp => "looking-up",
        Group::Sign => "sign",
        Group::None => "none",
    };
    let meaning = match meaning(number) {
        Meaning::Nothing => "nothing",
        Meaning::Code => "code",
        Meaning::LengthNeeded => "length-needed",
        Meaning::CodesLeft => "codes-left",
        Meaning::Offset => "offset",
        Meaning::Vertex => "vertex",
        Meaning::RankEntry => "rank-entry",
        Meaning::Line => "line",
    };
    format!("group {group} {meaning}")
}
