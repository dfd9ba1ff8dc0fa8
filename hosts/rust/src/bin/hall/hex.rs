//! Octets in hexadecimal, both ways.
use crate::text::Expected;

fn expected(found: &str) -> Expected {
    format!("octets, each two hexadecimal digits, with spaces or colons between them or not, found '{found}'")
}

fn is_between(letter: char) -> bool {
    letter == ':' || letter.is_ascii_whitespace()
}

/// The octets of one run of digits.
fn pairs(run: &str) -> Result<Vec<u8>, Expected> {
    if !run.bytes().all(|digit| digit.is_ascii_hexdigit()) || run.len() % 2 == 1 {
        return Err(expected(run));
    }
    (0..run.len() / 2).map(|i| u8::from_str_radix(&run[2 * i..2 * i + 2], 16).map_err(|_| expected(run))).collect()
}

/// The octets in a text.
pub fn read(text: &str) -> Result<Vec<u8>, Expected> {
    let mut octets = Vec::new();
    for run in text.split(is_between) {
        octets.extend(pairs(run)?);
    }
    Ok(octets)
}

/// The octets as text, as `f1 80 0f 3e`.
pub fn show(octets: &[u8]) -> String {
    let shown: Vec<String> = octets.iter().map(|octet| format!("{octet:02x}")).collect();
    shown.join(" ")
}
