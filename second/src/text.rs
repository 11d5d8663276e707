//! The text files that the commands read, and hex: one code a line, weights as decimal numbers.

use std::fmt::Write;

/// What a line begins with whose code is written in hex digits.
const HEX_SIGN: &[u8] = b"0x";

/// The lines of a codes file. The final newline ends the last line; an empty text has no lines.
pub fn code_lines(text: &[u8]) -> Vec<&[u8]> {
    if text.is_empty() {
        return Vec::new();
    }
    let text = text.strip_suffix(b"\n").unwrap_or(text);
    text.split(|&byte| byte == b'\n').collect()
}

/// The code that a line of a codes file stands for: the bytes of its hex digits after `0x`, or
/// else the line's bytes themselves. Carriage returns and newlines can only be written in hex.
pub fn code(line: &[u8]) -> Result<Vec<u8>, String> {
    if let Some(digits) = line.strip_prefix(HEX_SIGN) {
        return bytes_of_hex(digits);
    }
    if line.contains(&b'\r') || line.contains(&b'\n') {
        return Err(
            "holds a carriage return or a newline; if it belongs to the code, write the code in hex after 0x, otherwise take it away"
                .to_string(),
        );
    }
    Ok(line.to_vec())
}

/// The bytes that pairs of hex digits stand for.
pub fn bytes_of_hex(digits: &[u8]) -> Result<Vec<u8>, String> {
    let mut halves = Vec::new();
    for &digit in digits {
        match char::from(digit).to_digit(16) {
            Some(half) => halves.push(half as u8),
            None => {
                return Err(format!(
                    "has `{}` among its hex digits",
                    digit.escape_ascii()
                ))
            }
        }
    }
    if halves.len() % 2 != 0 {
        return Err("has an odd number of hex digits".to_string());
    }
    Ok(halves
        .chunks(2)
        .map(|pair| 16 * pair[0] + pair[1])
        .collect())
}

/// The codes of a codes file, or words about the first line that cannot be read.
pub fn codes(text: &[u8]) -> Result<Vec<Vec<u8>>, String> {
    code_lines(text)
        .iter()
        .enumerate()
        .map(|(k, line)| code(line).map_err(|fault| format!("line {} {fault}", k + 1)))
        .collect()
}

/// The codes as one run with their ends. An end over 65,535 has no two bytes to stand in and is
/// given as 65,535. The list is then refused all the same and at the same place: with at most
/// 1,024 codes, a code over 32 bytes begins below 32,768 and still ends far past its 32nd byte.
pub fn run_and_ends(codes: &[Vec<u8>]) -> (Vec<u8>, Vec<u16>) {
    let mut run = Vec::new();
    let mut ends = Vec::new();
    for code in codes {
        run.extend_from_slice(code);
        ends.push(u16::try_from(run.len()).unwrap_or(u16::MAX));
    }
    (run, ends)
}

/// The weights of a weights file, or words about the first that is no number 0 to 65,535.
pub fn weights(text: &[u8]) -> Result<Vec<u16>, String> {
    let mut weights = Vec::new();
    for (number_of_line, line) in text.split(|&byte| byte == b'\n').enumerate() {
        let words = line.split(|&byte| byte == b' ' || byte == b'\t');
        for word in words.filter(|word| !word.is_empty()) {
            match decimal(word).and_then(|number| u16::try_from(number).ok()) {
                Some(weight) => weights.push(weight),
                None => {
                    return Err(format!(
                        "line {}: weight number {} (from 0) is `{}`, not a number 0 to 65535",
                        number_of_line + 1,
                        weights.len(),
                        excerpt(word)
                    ))
                }
            }
        }
    }
    Ok(weights)
}

/// The number that decimal digits stand for; the largest u64 where they stand for a larger one.
pub fn decimal(digits: &[u8]) -> Option<u64> {
    if digits.is_empty() {
        return None;
    }
    let mut number: u64 = 0;
    for &digit in digits {
        let digit = char::from(digit).to_digit(10)?;
        number = number.saturating_mul(10).saturating_add(u64::from(digit));
    }
    Some(number)
}

/// Bytes in lowercase hex.
pub fn hex(bytes: &[u8]) -> String {
    let mut text = String::new();
    for byte in bytes {
        write!(text, "{byte:02x}").expect("writing to a String succeeds");
    }
    text
}

/// Bytes for an error message: printable, and cut with a note where they are many.
pub fn excerpt(bytes: &[u8]) -> String {
    const MOST_SHOWN: usize = 80;
    if bytes.len() <= MOST_SHOWN {
        bytes.escape_ascii().to_string()
    } else {
        format!(
            "{}.. ({} bytes in all)",
            bytes[..MOST_SHOWN].escape_ascii(),
            bytes.len()
        )
    }
}
