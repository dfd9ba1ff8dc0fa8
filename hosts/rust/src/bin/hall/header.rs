//! `hall header write A` and `hall header read HEX`.
use crate::commands::{wrong, Command};
use crate::describe::{describe, octets};
use crate::{hex, input, text, Done, Failure};
use pasa::{Address, HEADER_MOST};
use std::ffi::OsString;
use std::io::Write;

const USAGE: &str = "\
usage: hall header write A
       hall header read HEX..
       hall header read -";

pub const COMMAND: Command = Command {
    name: "header",
    usage: USAGE,
    list: "  header write A            the header of a packet for an address, in hexadecimal
  header read HEX..         what the header of a packet says
",
    help: "\
Writes the header of a packet for A as octets in hexadecimal, or reads one at the front
of a packet: HEX is its octets, with spaces or colons between them or not, in one word
or in several; - reads them from standard input. Place is where the payload begins. A
packet that ends there has an empty payload and is refused with 16.

    $ hall header write 111110
    f1 80 0f 3e
    $ hall header read f1 80 0f 3e 68 69
    address 111110 (0x3e)
    kind    router
    depth   1
    parent  1
    place   4
    payload 2 octets
    $ hall header read f1 80 0f 3e
    refused 16: the payload is empty
",
    run,
};

fn run(words: &[OsString], out: &mut dyn Write) -> Done {
    let words = text::words(words);
    let words: Vec<&str> = words.iter().map(String::as_str).collect();
    match words[..] {
        ["write", address] => write(address, out),
        ["write", ..] => Err(wrong(USAGE, "one address")),
        ["read", "-"] => read(&input::text()?, out),
        ["read", _, ..] => read(&words[1..].join(" "), out),
        ["read"] => Err(wrong(USAGE, "the octets of a packet in hexadecimal, or - for standard input")),
        _ => Err(wrong(USAGE, "'write' or 'read'")),
    }
}

fn write(word: &str, out: &mut dyn Write) -> Done {
    let number = text::number(word).map_err(|expected| wrong(USAGE, &expected))?;
    let mut octets = [0; HEADER_MOST];
    let size = pasa::write_header(Address::new(number)?, &mut octets)?;
    writeln!(out, "{}", hex::show(&octets[..size]))?;
    Ok(())
}

fn read(text: &str, out: &mut dyn Write) -> Result<(), Failure> {
    let packet = hex::read(text).map_err(|expected| wrong(USAGE, &expected))?;
    let (address, place) = pasa::read_header(&packet)?;
    describe(address, out)?;
    writeln!(out, "place   {place}")?;
    writeln!(out, "payload {}", octets(packet.len() - place))?;
    Ok(())
}
