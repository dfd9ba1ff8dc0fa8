//! Addresses, records and other numbers as words of the command line.
use crate::kind::Kind;
use pasa::{Address, Node, Refusal, NO_CAP};
use std::ffi::OsString;

/// What was expected, where a word is not that.
pub type Expected = String;

/// The words as text; one that is none is shown as it can be, and is then refused by whoever reads it.
pub fn words(words: &[OsString]) -> Vec<String> {
    words.iter().map(|word| word.to_string_lossy().into_owned()).collect()
}

fn no_address(word: &str) -> Expected {
    format!("an address, binary digits as 111110 or a number as 0x3e or 0b111110, found '{word}'")
}

fn too_long(word: &str) -> Expected {
    format!("an address of at most 64 bits, found '{word}'")
}

fn in_base(digits: &str, base: u32, word: &str) -> Result<u64, Expected> {
    if digits.is_empty() || !digits.chars().all(|digit| digit.is_digit(base)) {
        return Err(no_address(word));
    }
    u64::from_str_radix(digits, base).map_err(|_| too_long(word))
}

/// The number that a word gives for an address: it may be zero, which is for the papers to refuse. Binary digits alone are the address's own
/// string, so they begin with 1.
pub fn number(word: &str) -> Result<u64, Expected> {
    if let Some(digits) = word.strip_prefix("0x") {
        return in_base(digits, 16, word);
    }
    if let Some(digits) = word.strip_prefix("0b") {
        return in_base(digits, 2, word);
    }
    let number = in_base(word, 2, word)?;
    if word.starts_with('0') && word != "0" {
        return Err(format!("an address whose first digit is 1, found '{word}'"));
    }
    Ok(number)
}

/// A record as it is written: its numbers may be too large for any node's.
pub struct Record {
    address: u64,
    routers: Count,
    hosts: Count,
}

/// A number, or nothing where it is larger than its type holds.
type Number<T> = Option<T>;

/// The children of a kind given so far, and the limit on them where one is written.
struct Count {
    given: Number<u8>,
    limit: Option<Number<u64>>,
}

fn decimal<T: std::str::FromStr>(digits: &str) -> Option<Number<T>> {
    let is_number = !digits.is_empty() && digits.bytes().all(|digit| digit.is_ascii_digit());
    is_number.then(|| digits.parse().ok())
}

/// A count, as `2`, or a count and its limit, as `2/3`.
fn count(text: &str) -> Option<Count> {
    match text.split_once('/') {
        None => Some(Count { given: decimal(text)?, limit: None }),
        Some((given, limit)) => Some(Count { given: decimal(given)?, limit: Some(decimal(limit)?) }),
    }
}

fn counts(text: &str) -> Option<(Count, Count)> {
    let (routers, hosts) = text.split_once(',')?;
    Some((count(routers)?, count(hosts)?))
}

/// The record in a word: an address, or an address with its counts of routers and hosts behind it, as `110:2,1`, and with their limits, as
/// `110:2/3,1`.
pub fn record(word: &str) -> Result<Record, Expected> {
    let (address, behind) = word.split_once(':').unwrap_or((word, "0,0"));
    let address = number(address)?;
    let expected = || format!("a record, an address with its routers and hosts as 110:2,1, or with a limit as 110:2/3,1, found '{word}'");
    let (routers, hosts) = counts(behind).ok_or_else(expected)?;
    Ok(Record { address, routers, hosts })
}

/// The limit in a word; nothing where it is larger than any number of 64 bits.
pub fn limit(word: &str) -> Result<Number<u64>, Expected> {
    decimal(word).ok_or_else(|| format!("a limit, 0 to {NO_CAP}, found '{word}'"))
}

fn hexadecimal(digits: &str) -> Option<Number<u64>> {
    let is_number = !digits.is_empty() && digits.bytes().all(|digit| digit.is_ascii_hexdigit());
    is_number.then(|| u64::from_str_radix(digits, 16).ok())
}

/// The payload length in a word; nothing where it is larger than any number of 64 bits.
pub fn length(word: &str) -> Result<Number<u64>, Expected> {
    let length = match word.strip_prefix("0x") {
        Some(digits) => hexadecimal(digits),
        None => decimal(word),
    };
    length.ok_or_else(|| format!("a payload length, decimal digits as 1280 or a number as 0x500, found '{word}'"))
}

impl Record {
    /// The node that has this record. Address zero and a number that no record can hold make it bad: "Any other record is bad." So does a limit
    /// that cannot be set: it is above 64, or its count is above it.
    pub fn node(&self) -> Result<Node, Refusal> {
        let address = Address::new(self.address).map_err(|_| Refusal::BadRecord)?;
        let given = |count: &Count| count.given.ok_or(Refusal::BadRecord);
        let mut node = Node::restore(address, given(&self.routers)?, given(&self.hosts)?);
        for (kind, count) in [(Kind::Router, &self.routers), (Kind::Host, &self.hosts)] {
            if let Some(limit) = count.limit {
                kind.limit_of(&mut node, limit.ok_or(Refusal::BadRecord)?)?;
            }
        }
        Ok(node)
    }
}

/// A count as it is written, with its limit where it has one.
pub fn counted(given: u8, limit: u8) -> String {
    if limit == NO_CAP {
        given.to_string()
    } else {
        format!("{given}/{limit}")
    }
}

/// A record as it is written.
pub fn shown(node: &Node) -> String {
    let (routers, hosts) = (counted(node.routers(), node.router_limit()), counted(node.hosts(), node.host_limit()));
    format!("{}:{routers},{hosts}", node.address())
}
