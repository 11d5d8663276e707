//! Building: the refusals 1 to 8 in their order, and only then the file into the lent buffer.

use crate::answers::{
    refuse, Built, Refusal, ARITY, BUFFER, CYCLIC, PART_SIZE, TOO_MANY_CODES, WEIGHTS,
};
use crate::codes::{check_all_different, CodeList};
use crate::file;
use crate::graph::{peel, Peeled};
use crate::header::Header;
use crate::sizes::{arity_allowed, count_allowed, part_size_allowed, WEIGHTS_OF_A_PART};
use crate::table::{landing_vertex, line, rank_entries, values};
use crate::vertices::vertices;

/// Builds the directory of a code list. On success the file stands at the start of the buffer and
/// the bytes after it are unchanged; on refusal no byte of the buffer changes.
pub fn build(
    list: &CodeList,
    r: u64,
    v: u64,
    weights: &[u16],
    buffer: &mut [u8],
) -> Result<Built, Refusal> {
    let header = check_sizes(list, r, v, weights)?;
    let codes = list.codes()?;
    if buffer.len() < header.length() {
        return refuse(BUFFER, header.length());
    }
    check_all_different(&codes)?;
    let vertices_of: Vec<Vec<usize>> = codes
        .iter()
        .map(|code| vertices(code, weights, header.r, header.v))
        .collect();
    let Peeled {
        removal_list,
        most_waiting,
    } = peel(&vertices_of);
    let left = codes.len() - removal_list.len();
    if left > 0 {
        return refuse(CYCLIC, left);
    }
    let file = directory(&header, weights, &codes, &vertices_of, &removal_list);
    buffer[..file.len()].copy_from_slice(&file);
    Ok(Built { most_waiting })
}

/// Refusals 1 to 4.
fn check_sizes(list: &CodeList, r: u64, v: u64, weights: &[u16]) -> Result<Header, Refusal> {
    if !arity_allowed(r) {
        return refuse(ARITY, 0);
    }
    if !part_size_allowed(r, v) {
        return refuse(PART_SIZE, 0);
    }
    if weights.len() as u64 != WEIGHTS_OF_A_PART as u64 * r {
        return refuse(WEIGHTS, 0);
    }
    let n = list.count();
    if !count_allowed(n as u64) {
        return refuse(TOO_MANY_CODES, 0);
    }
    Ok(Header {
        n,
        r: r as usize,
        v: v as usize,
    })
}

/// The file of codes that are all removed, in this order.
fn directory(
    header: &Header,
    weights: &[u16],
    codes: &[&[u8]],
    vertices_of: &[Vec<usize>],
    removal_list: &[usize],
) -> Vec<u8> {
    let r = header.r;
    let values = values(vertices_of, removal_list, r, header.vertices());
    let mut lines_and_codes: Vec<(usize, &[u8])> = vertices_of
        .iter()
        .zip(codes)
        .map(|(vertices, &code)| (line(landing_vertex(vertices, &values, r), &values, r), code))
        .collect();
    lines_and_codes.sort();
    let codes_in_line_order: Vec<&[u8]> = lines_and_codes.iter().map(|&(_, code)| code).collect();
    let rank_entries = rank_entries(&values, r);
    file::write(
        header,
        weights,
        &values,
        &rank_entries,
        &codes_in_line_order,
    )
}
