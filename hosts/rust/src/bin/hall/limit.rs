//! `hall limit RECORD KIND LIMIT`.
use crate::commands::{wrong, Command};
use crate::kind::Kind;
use crate::{text, Done, Failure};
use pasa::Refusal;
use std::ffi::OsString;
use std::io::Write;

const USAGE: &str = "usage: hall limit RECORD routers|hosts LIMIT";

pub const COMMAND: Command = Command {
    name: "limit",
    usage: USAGE,
    list: "  limit RECORD KIND LIMIT   set how many children a node may give, as limit 1:2,1 hosts 3\n",
    help: "\
Sets how many router children or host children the node with this record may give, those
given so far among them, and says the record that it goes on with: 110:2/3,1 has given 2
routers of 3, and 1 host without a limit. 0 to 64 are limits, and 64 is none: it takes a
limit away. A limit above 64, one below the count, and any limit on a bad record are
refused with 1.

    $ hall limit 1:2,1 routers 3
    record 1:2/3,1
    $ hall limit 1:2/3,1 hosts 1
    record 1:2/3,1/1
    $ hall limit 1:2/3,1 routers 64
    record 1:2,1
    $ hall limit 1:2/3,1 routers 1
    refused 1: the node record is bad, or a limit to set isn't 0 to 64 or is below its count
",
    run,
};

fn kind(word: &str) -> Result<Kind, Failure> {
    match word {
        "routers" => Ok(Kind::Router),
        "hosts" => Ok(Kind::Host),
        _ => Err(wrong(USAGE, &format!("'routers' or 'hosts', found '{word}'"))),
    }
}

fn run(words: &[OsString], out: &mut dyn Write) -> Done {
    let [record, limited, limit] = &text::words(words)[..] else {
        return Err(wrong(USAGE, "a record, 'routers' or 'hosts', and a limit"));
    };
    let record = text::record(record).map_err(|expected| wrong(USAGE, &expected))?;
    let limited = kind(limited)?;
    let limit = text::limit(limit).map_err(|expected| wrong(USAGE, &expected))?;
    let mut node = record.node()?;
    // a number of more than 64 bits is outside 0 to 64 as well
    limited.limit_of(&mut node, limit.ok_or(Refusal::BadRecord)?)?;
    writeln!(out, "record {}", text::shown(&node))?;
    Ok(())
}
