//! Reading a line of a trace.
use crate::kind::Kind;
use crate::text::Expected;
use pasa::Address;

pub enum Line {
    /// The kind of the child, and the node that is asked.
    Request(Kind, Address),
    /// The kind that is limited, the node whose limit is set, and the limit.
    Setting(Kind, Address, u64),
    /// The node that the packet starts from, and its destination.
    Send(Address, Address),
    Tree,
    /// An empty line or a comment.
    Nothing,
}

/// So much of a line is shown in a message; no command is longer.
const SHOWN: usize = 140;

fn shown(text: &[u8]) -> String {
    let front = &text[..text.len().min(SHOWN)];
    let more = if front.len() < text.len() { ".." } else { "" };
    format!("{}{more}", String::from_utf8_lossy(front).escape_debug())
}

/// The address that binary digits give, the first of them 1.
fn address(digits: &[u8]) -> Result<Address, Expected> {
    let expected = || format!("an address of 1 to 64 binary digits, the first of them 1, found '{}'", shown(digits));
    let is_address = digits.first() == Some(&b'1') && digits.len() <= 64 && digits.iter().all(|digit| matches!(digit, b'0' | b'1'));
    if !is_address {
        return Err(expected());
    }
    let number = digits.iter().fold(0, |number, digit| number << 1 | u64::from(digit - b'0'));
    Address::new(number).map_err(|_| expected())
}

/// The limit that decimal digits give: it may be above 64, which is for the papers to refuse.
fn limit(digits: &[u8]) -> Result<u64, Expected> {
    let is_number = digits == b"0" || digits.first().is_some_and(|digit| (b'1'..=b'9').contains(digit));
    let text = std::str::from_utf8(digits).ok().filter(|_| is_number && digits.iter().all(u8::is_ascii_digit));
    let limit = text.and_then(|text| text.parse().ok());
    limit.ok_or_else(|| format!("a limit in decimal digits, without a zero in front and of at most 64 bits, found '{}'", shown(digits)))
}

const COMMANDS: &str = "'router A', 'host A', 'limit A routers LIMIT', 'limit A hosts LIMIT', 'send A D' or 'tree'";

/// The command of a line, which comes without its newline.
pub fn read(line: &[u8]) -> Result<Line, Expected> {
    if line.is_empty() || line.starts_with(b"#") {
        return Ok(Line::Nothing);
    }
    let words: Vec<&[u8]> = line.split(|octet| *octet == b' ').collect();
    match words[..] {
        [b"router", asked] => Ok(Line::Request(Kind::Router, address(asked)?)),
        [b"host", asked] => Ok(Line::Request(Kind::Host, address(asked)?)),
        [b"limit", asked, b"routers", number] => Ok(Line::Setting(Kind::Router, address(asked)?, limit(number)?)),
        [b"limit", asked, b"hosts", number] => Ok(Line::Setting(Kind::Host, address(asked)?, limit(number)?)),
        [b"send", from, to] => Ok(Line::Send(address(from)?, address(to)?)),
        [b"tree"] => Ok(Line::Tree),
        _ => Err(format!("{COMMANDS}, with one space between words, found '{}'", shown(line))),
    }
}
