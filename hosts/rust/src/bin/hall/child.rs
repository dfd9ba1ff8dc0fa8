//! `hall child RECORD KIND`.
use crate::commands::{wrong, Command};
use crate::kind::Kind;
use crate::{text, Done, Failure};
use std::ffi::OsString;
use std::io::Write;

const USAGE: &str = "usage: hall child RECORD router|host";

pub const COMMAND: Command = Command {
    name: "child",
    usage: USAGE,
    list: "  child RECORD KIND         the next child that a node gives, as child 110:2,1 host\n",
    help: "\
Asks the node with this record for a router or a host: says the child's address, and the
record that the node goes on with. A record is the node's address with the router
children and the host children given so far, as 110:2,1; an address alone has given none.
A count may have a limit behind it, as 110:2/3,1, and has none otherwise. A node that has
given as many as its limit refuses the next with 15; the other kind goes on.

    $ hall child 1:2/3,1 router
    child  1110
    record 1:3/3,1
    $ hall child 1:3/3,1 router
    refused 15: a node is asked for a child at its limit
    $ hall child 1:3/3,1 host
    child  111
    record 1:3/3,2
",
    run,
};

fn kind(word: &str) -> Result<Kind, Failure> {
    match word {
        "router" => Ok(Kind::Router),
        "host" => Ok(Kind::Host),
        _ => Err(wrong(USAGE, &format!("'router' or 'host', found '{word}'"))),
    }
}

fn run(words: &[OsString], out: &mut dyn Write) -> Done {
    let [record, asked] = &text::words(words)[..] else {
        return Err(wrong(USAGE, "a record, and 'router' or 'host'"));
    };
    let record = text::record(record).map_err(|expected| wrong(USAGE, &expected))?;
    let asked = kind(asked)?;
    let mut node = record.node()?;
    let child = asked.child_of(&mut node)?;
    writeln!(out, "child  {child}")?;
    writeln!(out, "record {}", text::shown(&node))?;
    Ok(())
}
