//! `hall next RECORD DESTINATION`.
use crate::commands::{wrong, Command};
use crate::{text, Done};
use pasa::{Address, Hop, Node, Refusal};
use std::ffi::OsString;
use std::io::Write;

const USAGE: &str = "usage: hall next RECORD DESTINATION";

pub const COMMAND: Command = Command {
    name: "next",
    usage: USAGE,
    list: "  next RECORD DESTINATION   the next hop at a node, as next 110:2,1 1\n",
    help: "\
Says where the node with this record passes a packet for the destination. A record is
the node's address with the router children and the host children given so far, as
110:2,1; an address alone has given none. A count may have its limit behind it, as
110:2/3,1: no packet goes otherwise for it, but a count above its limit, or a limit above
64, makes the record bad.

    $ hall next 1:2,2 1101
    pass to child 110
    $ hall next 110:0,1 10
    pass to parent 1
    $ hall next 10 10
    deliver at 10
    $ hall next 1:2,2 1110
    refused 7: destination below this node, child not given
",
    run,
};

fn run(words: &[OsString], out: &mut dyn Write) -> Done {
    let [record, destination] = &text::words(words)[..] else {
        return Err(wrong(USAGE, "a record and a destination"));
    };
    let record = text::record(record).map_err(|expected| wrong(USAGE, &expected))?;
    let destination = text::number(destination).map_err(|expected| wrong(USAGE, &expected))?;
    match hop(&record.node()?, destination)? {
        Hop::Deliver(node) => writeln!(out, "deliver at {node}")?,
        Hop::Parent(node) => writeln!(out, "pass to parent {node}")?,
        Hop::Child(node) => writeln!(out, "pass to child {node}")?,
    }
    Ok(())
}

/// "For a next hop from an address 1, 9, 7": a bad record comes before destination zero, and it is the same for every destination.
fn hop(node: &Node, destination: u64) -> Result<Hop, Refusal> {
    match Address::new(destination) {
        Ok(destination) => node.next_hop(destination),
        Err(zero) => node.next_hop(Address::ROOT).and(Err(zero)),
    }
}
