//! `hall nsa write LENGTH SOURCE DESTINATION` and `hall nsa read HEX`.
use crate::commands::{wrong, Command};
use crate::describe::{both, octets};
use crate::{hex, input, text, Done};
use pasa::{Address, NsaFields, Refusal, NSA_MOST};
use std::ffi::OsString;
use std::io::Write;

const USAGE: &str = "\
usage: hall nsa write LENGTH SOURCE DESTINATION
       hall nsa read HEX..
       hall nsa read -";

pub const COMMAND: Command = Command {
    name: "nsa",
    usage: USAGE,
    list: "  nsa write LENGTH A B      the older NSA fields of a packet from A to B, in hexadecimal
  nsa read HEX..            what the older NSA fields of a packet say
",
    help: "\
Writes the older NSA fields of a packet, payload length, source and destination in a row,
as octets in hexadecimal, or reads them at the front of some octets. LENGTH is decimal
digits, or a number as 0x500; SOURCE and DESTINATION are addresses. HEX is octets, with
spaces or colons between them or not, in one word or in several; - reads them from
standard input. Place is where the fields end; LENGTH is not compared with what stands
behind them. Each field is written in its shortest form, and no other is read.

    $ hall nsa write 1280 111110 0x2b
    fe 04 04 3e 2b
    $ hall nsa read fe 04 04 3e 2b 68 69
    length      1280
    source      111110 (0x3e)
    destination 101011 (0x2b)
    place       5
    behind      2 octets
    $ hall nsa read 02 fd 00 3e 2b 68 69
    refused 6: a size above 8, a first octet of zero where there are several, or an NSA field that isn't the shortest form of a number
",
    run,
};

fn run(words: &[OsString], out: &mut dyn Write) -> Done {
    let words = text::words(words);
    let words: Vec<&str> = words.iter().map(String::as_str).collect();
    match words[..] {
        ["write", length, source, destination] => write(length, source, destination, out),
        ["write", ..] => Err(wrong(USAGE, "a payload length, a source and a destination")),
        ["read", "-"] => read(&input::text()?, out),
        ["read", _, ..] => read(&words[1..].join(" "), out),
        ["read"] => Err(wrong(USAGE, "the octets of the fields in hexadecimal, or - for standard input")),
        _ => Err(wrong(USAGE, "'write' or 'read'")),
    }
}

fn write(length: &str, source: &str, destination: &str, out: &mut dyn Write) -> Done {
    let length = text::length(length).map_err(|expected| wrong(USAGE, &expected))?;
    let number = |word: &str| text::number(word).map_err(|expected| wrong(USAGE, &expected));
    let (source, destination) = (number(source)?, number(destination)?);
    let mut octets = [0; NSA_MOST];
    // a number of more than 64 bits is above 65,787 as well
    let size = fields(length.ok_or(Refusal::TooMany)?, source, destination, &mut octets)?;
    writeln!(out, "{}", hex::show(&octets[..size]))?;
    Ok(())
}

/// "A length to write above 65,787 is 14, checked first; then 9": it is judged alike for all addresses, so where one is zero it is judged beside the
/// root's.
fn fields(length: u64, source: u64, destination: u64, out: &mut [u8]) -> Result<usize, Refusal> {
    let written = |source, destination, out| pasa::write_nsa(NsaFields { length, source, destination }, out);
    match (Address::new(source), Address::new(destination)) {
        (Ok(source), Ok(destination)) => written(source, destination, out),
        (Err(zero), _) | (_, Err(zero)) => written(Address::ROOT, Address::ROOT, out).and(Err(zero)),
    }
}

fn read(text: &str, out: &mut dyn Write) -> Done {
    let read = hex::read(text).map_err(|expected| wrong(USAGE, &expected))?;
    let (fields, place) = pasa::read_nsa(&read)?;
    writeln!(out, "length      {}", fields.length)?;
    writeln!(out, "source      {}", both(fields.source))?;
    writeln!(out, "destination {}", both(fields.destination))?;
    writeln!(out, "place       {place}")?;
    writeln!(out, "behind      {}", octets(read.len() - place))?;
    Ok(())
}
