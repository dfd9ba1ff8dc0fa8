//! `hall ipv6 write PREFIX A` and `hall ipv6 read PREFIX IPV6`.
use crate::commands::{wrong, Command};
use crate::describe::describe;
use crate::text::{self, Expected};
use crate::{Done, Failure};
use pasa::{Address, Refusal, IPV6_PREFIX, IPV6_WHOLE};
use std::ffi::OsString;
use std::io::Write;
use std::net::Ipv6Addr;

const USAGE: &str = "\
usage: hall ipv6 write PREFIX A
       hall ipv6 read PREFIX IPV6";

pub const COMMAND: Command = Command {
    name: "ipv6",
    usage: USAGE,
    list: "  ipv6 write PREFIX A       the IPv6 form of an address, as ipv6 write 2001:db8:: 111110
  ipv6 read PREFIX IPV6     the address in an IPv6 form
",
    help: "\
Writes the IPv6 form of A, or reads the address in an IPv6 form that begins with the
prefix. A prefix is in the usual text form and has 64 bits: 2001:db8:: or 2001:db8::/64.

    $ hall ipv6 write 2001:db8:: 111110
    2001:db8::3e
    $ hall ipv6 read 2001:db8:: 2001:db8::3e
    address 111110 (0x3e)
    kind    router
    depth   1
    parent  1
",
    run,
};

/// A prefix as it is written: its octets, and its length in bits.
struct Prefix {
    octets: [u8; IPV6_PREFIX],
    bits: u8,
}

fn no_prefix(word: &str) -> Expected {
    format!("a prefix of 64 bits, as 2001:db8:: or 2001:db8::/64, found '{word}'")
}

fn length(word: &str, digits: &str) -> Result<u8, Expected> {
    let is_number = digits.bytes().all(|digit| digit.is_ascii_digit());
    let bits = digits.parse().ok().filter(|bits| is_number && *bits <= 128);
    bits.ok_or_else(|| no_prefix(word))
}

fn prefix(word: &str) -> Result<Prefix, Expected> {
    let (text, bits) = match word.split_once('/') {
        Some((text, digits)) => (text, length(word, digits)?),
        None => (word, 64),
    };
    let whole: Ipv6Addr = text.parse().map_err(|_| no_prefix(word))?;
    let [front @ .., _, _, _, _, _, _, _, _] = whole.octets();
    if bits == 64 && whole.octets()[IPV6_PREFIX..] != [0; IPV6_PREFIX] {
        return Err(no_prefix(word));
    }
    Ok(Prefix { octets: front, bits })
}

impl Prefix {
    /// "an IPv6 address isn't 16 octets, or a prefix isn't 8"
    fn octets(&self) -> Result<&[u8], Refusal> {
        if self.bits != 64 {
            return Err(Refusal::WrongLength);
        }
        Ok(&self.octets)
    }
}

fn run(words: &[OsString], out: &mut dyn Write) -> Done {
    let words = text::words(words);
    let words: Vec<&str> = words.iter().map(String::as_str).collect();
    match words[..] {
        ["write", prefix, address] => write(prefix, address, out),
        ["write", ..] => Err(wrong(USAGE, "a prefix and an address")),
        ["read", prefix, ipv6] => read(prefix, ipv6, out),
        ["read", ..] => Err(wrong(USAGE, "a prefix and an IPv6 address")),
        _ => Err(wrong(USAGE, "'write' or 'read'")),
    }
}

/// "For IPv6 out 12, 9, 10."
fn write(prefix_word: &str, address: &str, out: &mut dyn Write) -> Done {
    let prefix = prefix(prefix_word).map_err(|expected| wrong(USAGE, &expected))?;
    let number = text::number(address).map_err(|expected| wrong(USAGE, &expected))?;
    let octets = prefix.octets()?;
    let mut form = [0; IPV6_WHOLE];
    pasa::write_ipv6(octets, Address::new(number)?, &mut form)?;
    writeln!(out, "{}", Ipv6Addr::from(form))?;
    Ok(())
}

/// "For IPv6 back 12, 8, 9."
fn read(prefix_word: &str, word: &str, out: &mut dyn Write) -> Result<(), Failure> {
    let prefix = prefix(prefix_word).map_err(|expected| wrong(USAGE, &expected))?;
    let expected = |_| wrong(USAGE, &format!("an IPv6 address, as 2001:db8::3e, found '{word}'"));
    let ipv6: Ipv6Addr = word.parse().map_err(expected)?;
    describe(pasa::read_ipv6(prefix.octets()?, &ipv6.octets())?, out)?;
    Ok(())
}
