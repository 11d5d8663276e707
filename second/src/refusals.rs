//! The refusal numbers in groups, by the calls that give them, and what the place of each names.

use crate::answers::{
    ARITY, ASTRAY, BUFFER, CODE_ASKED, CODE_LIST, CYCLIC, EARLIER_NOW, KEY, LENGTH, LEVEL_REPORTED,
    LIMIT_ASKED, LISTS_LENT, MARK, RANK, REPEATED, VALUE,
};

/// The calls that first give a refusal number: building 1 to 8, opening 9 to 15, looking up 16, and the sign's
/// two calls 17 to 19, 22 and 23.
#[derive(Clone, Copy, Debug, PartialEq, Eq)]
pub enum Group {
    Building,
    Opening,
    LookingUp,
    Sign,
    None,
}

/// The group of a number; none where it is no refusal's.
pub fn group(number: u8) -> Group {
    match number {
        ARITY..=CYCLIC => Group::Building,
        LENGTH..=ASTRAY => Group::Opening,
        CODE_ASKED => Group::LookingUp,
        LEVEL_REPORTED..=EARLIER_NOW | LIMIT_ASKED..=LISTS_LENT => Group::Sign,
        _ => Group::None,
    }
}

/// What the place of a refusal names.
#[derive(Clone, Copy, Debug, PartialEq, Eq)]
pub enum Meaning {
    Nothing,
    Code,
    LengthNeeded,
    CodesLeft,
    Offset,
    Vertex,
    RankEntry,
    Line,
}

/// The third column of document 01's table; nothing where the number is the sign's or no refusal's.
pub fn meaning(number: u8) -> Meaning {
    match number {
        CODE_LIST | REPEATED => Meaning::Code,
        BUFFER => Meaning::LengthNeeded,
        CYCLIC => Meaning::CodesLeft,
        MARK => Meaning::Offset,
        VALUE => Meaning::Vertex,
        RANK => Meaning::RankEntry,
        KEY | ASTRAY => Meaning::Line,
        _ => Meaning::Nothing,
    }
}
