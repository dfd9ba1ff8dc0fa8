//! `hall path A B`.
use crate::commands::{wrong, Command};
use crate::{text, Done, Failure};
use pasa::{Address, PATH_MOST};
use std::ffi::OsString;
use std::io::Write;

const USAGE: &str = "usage: hall path A B";

pub const COMMAND: Command = Command {
    name: "path",
    usage: USAGE,
    list: "  path A B                  the path between two addresses, and its hops\n",
    help: "\
Lists the path from A up to the deepest common ancestor-or-self and down to B, both
ends in it, behind a line with its hops. No record is asked: it is the path that a
packet takes where every node on it is there.

    $ hall path 11 1101
    hops 3
    11
    1
    110
    1101
",
    run,
};

fn run(words: &[OsString], out: &mut dyn Write) -> Done {
    let [first, second] = &text::words(words)[..] else {
        return Err(wrong(USAGE, "two addresses"));
    };
    let number = |word: &str| text::number(word).map_err(|expected| wrong(USAGE, &expected));
    let (first, second) = (number(first)?, number(second)?);
    show(Address::new(first)?, Address::new(second)?, out)
}

fn show(first: Address, second: Address, out: &mut dyn Write) -> Result<(), Failure> {
    let mut listed = [0; PATH_MOST];
    let hops = pasa::path(first, second, &mut listed)?;
    writeln!(out, "hops {hops}")?;
    for address in &listed[..=hops] {
        writeln!(out, "{address:b}")?;
    }
    Ok(())
}
