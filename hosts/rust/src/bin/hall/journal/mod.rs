//! `hall journal`: makes a journal, writes a block to it, and shows what it holds and what is wrong with it.
//!
//! Every block is `write_block`'s, every hall `recover_journal`'s and every record `recovered_record`'s answer. What is said of a faulty slot is
//! this program's, and the refusal beside it the archive's.
mod append;
mod check;
mod fault;
mod file;
mod lock;
mod new;
mod show;

use crate::commands::{wrong, Command};
use crate::Done;
use std::ffi::OsString;
use std::io::Write;

const USAGE: &str = "\
usage: hall journal new FILE SLOTS
       hall journal append FILE A..
       hall journal show FILE
       hall journal draw FILE
       hall journal check FILE";

pub const COMMAND: Command = Command {
    name: "journal",
    usage: USAGE,
    list: "  journal new FILE SLOTS    an erased journal, in a new file
  journal append FILE A..   one block more, of 1 to 63 addresses
  journal show FILE         the nodes that a journal holds, and their records
  journal draw FILE         the same hall as a picture (SVG) on standard output
  journal check FILE        each slot of a journal, and what is wrong with it
",
    help: "\
A journal keeps the addresses that a hall has given, so that they outlive a power cut: 1
to 128 slots of 512 bytes, erased to 0xff, with a block of 1 to 63 addresses in each.
'new' makes one in a new file and never touches one that is there. 'append' writes one
block, in which each address is the next child of a node that is known before it, to the
first erased slot: its bytes in order, the last of them behind all others, and nothing
else of the file. A kill or a power cut at any moment leaves the hall before or after it;
another append of the same file waits meanwhile. 'show' lists the hall, a line for each
node in the order given, 'draw' draws it as 'hall draw' does, and 'check' says of each
slot what it is. FILE may be - for standard input but in 'new' and 'append'.

    $ hall journal new hall.journal 4
    slots 4 blocks 0 torn 0 erased 4 wrong 0 nodes 1
    $ hall journal append hall.journal 10 11 101
    slot 0: block of 3, nodes 4
    $ hall journal append hall.journal 1011 110
    slot 1: block of 2, nodes 6
    $ hall journal append hall.journal 1110 11110 111110 111
    slot 2: block of 4, nodes 10
    $ hall journal show hall.journal
    nodes 10
    1      root   depth 0 parent none routers 5 hosts 2
    10     router depth 1 parent 1    routers 0 hosts 2
    11     host   depth 1 parent 1    routers 0 hosts 0
    101    host   depth 2 parent 10   routers 0 hosts 0
    1011   host   depth 2 parent 10   routers 0 hosts 0
    110    router depth 1 parent 1    routers 0 hosts 0
    1110   router depth 1 parent 1    routers 0 hosts 0
    11110  router depth 1 parent 1    routers 0 hosts 0
    111110 router depth 1 parent 1    routers 0 hosts 0
    111    host   depth 1 parent 1    routers 0 hosts 0
    $ hall journal append hall.journal 1000
    refused 17: a journal's slot is out of place or no right block, or an address in it is no next child
    address 1 of the block, 1000: its parent 100 is not known
    $ hall journal check hall.journal
    slot 0: block of 3, nodes 4
    slot 1: block of 2, nodes 6
    slot 2: block of 4, nodes 10
    slot 3: erased
    slots 4 blocks 3 torn 0 erased 1 wrong 0 nodes 10
",
    run,
};

fn run(words: &[OsString], out: &mut dyn Write) -> Done {
    let Some((name, rest)) = words.split_first() else {
        return Err(wrong(USAGE, "'new', 'append', 'show', 'draw' or 'check'"));
    };
    match (name.to_str().unwrap_or(""), rest) {
        ("new", [file, slots]) => new::run(file, slots, out),
        ("new", _) => Err(wrong(USAGE, "a file and a number of slots")),
        ("append", [file, addresses @ ..]) if !addresses.is_empty() => append::run(file, addresses, out),
        ("append", _) => Err(wrong(USAGE, "a file, and an address or more")),
        ("show", [file]) => show::list(file, out),
        ("draw", [file]) => show::draw(file, out),
        ("check", [file]) => check::run(file, out),
        ("show" | "draw" | "check", _) => Err(wrong(USAGE, "one file, or - for standard input")),
        (_, _) => Err(wrong(USAGE, &format!("'new', 'append', 'show', 'draw' or 'check', found '{}'", name.to_string_lossy()))),
    }
}
