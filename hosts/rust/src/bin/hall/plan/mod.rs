//! `hall plan FILE`, and the reading of a plan for every command that takes one.
mod fault;

use crate::commands::{wrong, Command};
use crate::describe::Kind;
use crate::{input, Done, Failure};
use pasa::{Address, PlanRefusal, PLAN_BYTES, PLAN_NODES};
use std::ffi::{OsStr, OsString};
use std::io::Write;

const USAGE: &str = "usage: hall plan FILE";

pub const COMMAND: Command = Command {
    name: "plan",
    usage: USAGE,
    list: "  plan FILE                 the nodes of a hall plan, with their addresses\n",
    help: "\
Reads a hall plan from FILE, - being standard input, and lists the hall: a line for each
node in the order of the text, with its address, its kind and its depth, behind a line
with their number. A plan is R( items ), an item being H for a host or R( items ) for a
router, with no spaces; the outermost R is the root. One newline at the end of the file
is not part of it. A text that is no plan is shown with a mark under the byte where it
stops being one; places count from 0.

    $ echo 'R(R(H)H)' | hall plan -
    nodes 4
    1   root   depth 0
    10  router depth 1
    101 host   depth 2
    11  host   depth 1
    $ echo 'R(R(H)h)' | hall plan -
    refused 13: a plan's text is outside the grammar
    at place 6, found 'h'
    R(R(H)h)
          ^
",
    run,
};

/// The one word that names a plan's file.
pub fn file<'a>(words: &'a [OsString], usage: &'static str) -> Result<&'a OsStr, Failure> {
    match words {
        [word] => Ok(word),
        _ => Err(wrong(usage, "one file, or - for standard input")),
    }
}

/// The addresses of the plan that a word names, in the order of its text.
pub fn read(word: &OsStr) -> Result<Vec<Address>, Failure> {
    let text = text(word)?;
    let mut words = [0; PLAN_NODES];
    let nodes = pasa::read_plan(&text, &mut words).map_err(|refused| failure(refused, &text))?;
    let address = |word: &u64| Address::new(*word).expect("a plan's words are addresses");
    Ok(words[..nodes].iter().map(address).collect())
}

/// The text of a plan without the newline that may end its file. Two bytes more than a plan may have are as much as is read: without a newline
/// behind them these are too many still, so a longer file is refused for its length like any other.
fn text(word: &OsStr) -> Result<Vec<u8>, Failure> {
    let mut text = input::front(word, PLAN_BYTES + 2)?;
    if text.last() == Some(&b'\n') {
        text.pop();
    }
    Ok(text)
}

fn failure(refused: PlanRefusal, text: &[u8]) -> Failure {
    match refused.place() {
        Some(place) => Failure::Fault { refusal: refused.refusal(), shown: fault::show(text, place) },
        None => Failure::Refused(refused.refusal()),
    }
}

fn run(words: &[OsString], out: &mut dyn Write) -> Done {
    let nodes = read(file(words, USAGE)?)?;
    let widest = nodes.iter().map(|address| address.bit_length()).max().unwrap_or(0) as usize;
    writeln!(out, "nodes {}", nodes.len())?;
    for address in nodes {
        let digits = address.to_string();
        writeln!(out, "{digits:widest$} {:6} depth {}", Kind::of(address), address.depth())?;
    }
    Ok(())
}
