//! The faults that a file can have, by the check that finds them, in the order in which opening
//! looks: at the first and the last place of each kind.

use super::inputs::{key_places, lead, length_place, stored_code};
use crate::file;
use crate::header::Header;
use crate::sizes::{
    BLOCK, HEADER_BYTES, KEY_BYTES, MARK_BYTES, MOST_CODES, MOST_VERTICES, NUMBER_BYTES,
    VALUES_OF_A_BYTE, VALUE_BITS,
};

/// Where the header's numbers stand.
pub const N: usize = 2;
pub const R: usize = 4;
pub const V: usize = 5;

/// A change that puts a fault into a file.
pub type Change = Box<dyn Fn(&mut Vec<u8>)>;

/// A kind of fault, with the number of its refusal in words.
pub struct Kind {
    pub words: &'static str,
    pub changes: Vec<Change>,
}

/// All kinds of fault that this file can have, in the order in which opening looks for them.
pub fn kinds(file: &[u8], header: Header) -> Vec<Kind> {
    let kinds = [
        ("under 7 bytes (9)", under_seven()),
        ("the HD mark (10)", marks(&[0])),
        ("header numbers (11)", header_numbers()),
        ("the length (9)", lengths()),
        ("the other marks (10)", other_marks(&header)),
        ("values and spare bits (12)", values(&header)),
        ("rank entries and the total (13)", rank(file, header)),
        ("stored lengths and filling (14)", keys(file, header)),
        ("codes that lead astray (15)", astray(file, header)),
    ];
    kinds
        .into_iter()
        .map(|(words, changes)| Kind { words, changes })
        .collect()
}

fn change(change: impl Fn(&mut Vec<u8>) + 'static) -> Change {
    Box::new(change)
}

/// A change of one byte.
fn byte(place: usize, to: impl Fn(u8) -> u8 + 'static) -> Change {
    change(move |file| file[place] = to(file[place]))
}

/// A change of a two-byte number.
fn number(place: usize, number: usize) -> Change {
    let bytes = (number as u16).to_le_bytes();
    change(move |file| file[place..place + NUMBER_BYTES].copy_from_slice(&bytes))
}

fn under_seven() -> Vec<Change> {
    (0..HEADER_BYTES)
        .rev()
        .map(|length| change(move |file| file.truncate(length)))
        .collect()
}

/// Each letter of each mark.
fn marks(places: &[usize]) -> Vec<Change> {
    places
        .iter()
        .flat_map(|&place| [byte(place, |letter| letter ^ 1), byte(place + 1, |_| b'?')])
        .collect()
}

/// The last is r = 3 with a part size that only r = 2 allows.
fn header_numbers() -> Vec<Change> {
    let mut changes = vec![number(N, MOST_CODES + 1), number(N, 0xFFFF)];
    changes.extend([0, 1, 4, 255].map(|arity| byte(R, move |_| arity)));
    changes.extend([0, MOST_VERTICES / 2 + 1, MOST_VERTICES, 0xFFFF].map(|size| number(V, size)));
    changes.push(change(|file| {
        file[R] = 3;
        number(V, MOST_VERTICES / 3 + 1)(file);
    }));
    changes
}

/// One byte less, one more, a KY record less or more, 256 bytes more, numbers in the header that
/// are allowed and call for another length, and the header alone.
fn lengths() -> Vec<Change> {
    vec![
        change(|file| file.truncate(file.len() - 1)),
        change(|file| file.push(0)),
        change(|file| file.truncate(file.len() - KEY_BYTES)),
        change(|file| file.resize(file.len() + KEY_BYTES, 0)),
        change(|file| file.resize(file.len() + 256, 0)),
        byte(N, |n| n - 1),
        number(N, MOST_CODES),
        change(|file| {
            let largest = MOST_VERTICES / usize::from(file[R]);
            number(V, largest)(file);
        }),
        change(|file| file.truncate(HEADER_BYTES)),
    ]
}

fn other_marks(header: &Header) -> Vec<Change> {
    marks(&[
        header.weights_record(),
        header.values_record(),
        header.rank_record(),
        header.key_record(0),
        header.key_record(header.n - 1),
    ])
}

/// The byte that holds a vertex's value, and how far up it stands there.
fn value_place(header: &Header, vertex: usize) -> (usize, usize) {
    let place = header.values_record() + MARK_BYTES + vertex / VALUES_OF_A_BYTE;
    (place, VALUE_BITS * (vertex % VALUES_OF_A_BYTE))
}

fn value(header: &Header, vertex: usize, value: usize) -> Change {
    let (place, shift) = value_place(header, vertex);
    byte(place, move |byte| {
        byte & !(3 << shift) | (value as u8) << shift
    })
}

/// 3 at the first and the last vertex, which only r = 2 forbids, and each spare bit.
fn values(header: &Header) -> Vec<Change> {
    let m = header.vertices();
    let mut changes = Vec::new();
    if header.r < 3 {
        changes.extend([value(header, 0, 3), value(header, m - 1, 3)]);
    }
    let (last_byte, _) = value_place(header, m - 1);
    let spare = if m.is_multiple_of(VALUES_OF_A_BYTE) {
        8..8
    } else {
        VALUE_BITS * (m % VALUES_OF_A_BYTE)..8
    };
    changes.extend(spare.map(|bit| byte(last_byte, move |byte| byte | 1 << bit)));
    changes
}

/// Each byte of the first and the last entry; and one assigned vertex more, and one less, in the
/// last block, which change the total alone. The last vertex is left as it is.
fn rank(file: &[u8], header: Header) -> Vec<Change> {
    let entries = header.rank_record() + MARK_BYTES;
    let last_entry = header.key_record(0) - NUMBER_BYTES;
    let mut changes: Vec<Change> = [entries, entries + 1, last_entry, last_entry + 1]
        .into_iter()
        .map(|place| byte(place, |part| part ^ 4))
        .collect();
    let values = file::values(file, &header);
    let m = header.vertices();
    let last_block = BLOCK * (header.rank_entries() - 1)..m - 1;
    let unassigned = last_block.clone().rev().find(|&y| values[y] == header.r);
    let assigned = last_block.rev().find(|&y| values[y] != header.r);
    changes.extend(assigned.map(|vertex| value(&header, vertex, header.r)));
    changes.extend(unassigned.map(|vertex| value(&header, vertex, 1)));
    changes
}

/// At the first and the last line: lengths of 0, 33 and 255, no code at all, and the first and the
/// last byte of the filling. A code of 32 bytes has no filling.
fn keys(file: &[u8], header: Header) -> Vec<Change> {
    let mut changes = Vec::new();
    for line in [0, header.n - 1] {
        let length = length_place(&header, line);
        changes.extend([0, 33, 255].map(|wrong| byte(length, move |_| wrong)));
        changes.push(change(move |file| file[key_places(&header, line)].fill(0)));
        let filling = length + 1 + stored_code(file, &header, line).len();
        let end = header.key_record(line + 1);
        if filling < end {
            changes.push(byte(filling, |_| 1));
            changes.push(byte(end - 1, |_| 0x80));
        }
    }
    changes
}

/// At the first and the last line: the other's code, and a code that lands on an unassigned vertex.
fn astray(file: &[u8], header: Header) -> Vec<Change> {
    let weights = file::weights(file, &header);
    let values = file::values(file, &header);
    let nowhere = (0..=255)
        .map(|byte| [byte])
        .find(|code| lead(code, &weights, &values, header.r, header.v).is_none())
        .expect("a code that lands on an unassigned vertex");
    let ends = [0, header.n - 1];
    let mut changes = Vec::new();
    for (line, other) in [(ends[0], ends[1]), (ends[1], ends[0])] {
        let stored = file[key_places(&header, other)].to_vec();
        changes.push(change(move |file| {
            file[key_places(&header, line)].copy_from_slice(&stored)
        }));
        changes.push(change(move |file| {
            let places = key_places(&header, line);
            file[places.clone()].fill(0);
            file[places.start] = 1;
            file[places.start + 1] = nowhere[0];
        }));
    }
    changes
}
