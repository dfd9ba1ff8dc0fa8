//! `hall trace [--plan PLAN] [FILE]`: grows a tree from a list of requests and settings of limits, beginning with the root or with a plan's hall,
//! and shows the way of packets through it.
//!
//! Every address is `Node::router_child`'s or `Node::host_child`'s answer, every limit is set by `Node::set_router_limit` or
//! `Node::set_host_limit`, every packet is a header that `write_header` wrote with one payload octet behind it, and every hop
//! is `packet_next_hop`'s answer with the record of the node that the packet has reached.
mod line;
pub mod tree;
mod way;

use crate::commands::{wrong, Command};
use crate::kind::Kind;
use crate::{input, plan, Done, Failure};
use line::Line;
use pasa::Address;
use std::ffi::{OsStr, OsString};
use std::io::{self, BufRead, BufReader, Read, Write};
use tree::Tree;

const USAGE: &str = "\
usage: hall trace [FILE]
       hall trace --plan PLAN [FILE]";

pub const COMMAND: Command = Command {
    name: "trace",
    usage: USAGE,
    list: "  trace [FILE]              grow a tree from requests, and send packets through it
  trace --plan PLAN [FILE]  the same, beginning with the hall of a plan
",
    help: "\
Reads commands from FILE or from standard input, one a line, and answers each. The tree
begins with the root, 1, alone; addresses are binary digits.

    router A                ask node A for a router
    host A                  ask node A for a host
    limit A routers LIMIT   set how many routers node A may give; 64 is no limit
    limit A hosts LIMIT     set how many hosts node A may give
    send A D                a packet for D from node A, with a payload of one octet
    tree                    print the tree as it stands

Empty lines and lines that begin with # are passed over. A refused request, setting or
packet is an answer like any other. A line that is none of these ends the trace: 'bad
input at line K' on standard error, exit status 2.

    $ printf 'router 1\\nhost 1\\nsend 10 11\\nrouter 11\\n' | hall trace
    router of 1: 10
    host of 1: 11
    send 10 to 11: 10 1 11 delivered, 2 hops
    router of 11: refused 2
    $ printf 'limit 1 hosts 1\\nhost 1\\nhost 1\\nlimit 1 hosts 0\\ntree\\n' | hall trace
    limit 1 hosts 1: set
    host of 1: 11
    host of 1: refused 15
    limit 1 hosts 0: refused 1
    tree
    1 routers 0 hosts 1/1
      11 routers 0 hosts 0

With --plan the tree begins with the nodes of a hall plan, as they stand after the plan's
own requests. PLAN is read as 'hall plan' reads it; - is standard input for one of both.

    $ echo 'R(R(H)H)' > hall.plan
    $ printf 'send 101 11\\nhost 10\\n' | hall trace --plan hall.plan
    send 101 to 11: 101 10 1 11 delivered, 3 hops
    host of 10: 1011
",
    run,
};

const STANDARD: &str = "-";

fn run(words: &[OsString], out: &mut dyn Write) -> Done {
    let (plan, file) = files(words)?;
    let tree = match plan {
        Some(plan) => Tree::grown(&plan::read(plan)?),
        None => Tree::new(),
    };
    let (source, name) = input::open(file)?;
    obey_all(BufReader::with_capacity(1 << 16, source), &name, tree, out)
}

/// The words that name the plan, if there is one, and the trace.
fn files(words: &[OsString]) -> Result<(Option<&OsStr>, &OsStr), Failure> {
    let (plan, rest): (Option<&OsStr>, _) = match words {
        [option, plan, rest @ ..] if option == "--plan" => (Some(plan), rest),
        [option] if option == "--plan" => return Err(wrong(USAGE, "a plan's file behind --plan")),
        rest => (None, rest),
    };
    let file = match rest {
        [] => OsStr::new(STANDARD),
        [file] => file,
        _ => return Err(wrong(USAGE, "one file, or none for standard input")),
    };
    if plan == Some(OsStr::new(STANDARD)) && file == STANDARD {
        return Err(wrong(USAGE, "a file for the plan or for the trace: standard input holds only one of them"));
    }
    Ok((plan, file))
}

fn obey_all(mut input: BufReader<Box<dyn Read>>, name: &str, mut tree: Tree, out: &mut dyn Write) -> Done {
    let mut text = Vec::new();
    let mut number = 0;
    while next_line(&mut input, &mut text, name, out)? {
        number += 1;
        let line = line::read(&text).map_err(|expected| Failure::BadInput { line: number, expected })?;
        obey(line, &mut tree, out)?;
    }
    Ok(())
}

/// Takes the next line, without its newline, into `text`; false at the end of the input. Before it waits for more input it hands over the
/// answers so far, so that whoever types the lines sees each answer.
fn next_line(input: &mut BufReader<Box<dyn Read>>, text: &mut Vec<u8>, name: &str, out: &mut dyn Write) -> Result<bool, Failure> {
    if input.buffer().is_empty() {
        out.flush()?;
    }
    text.clear();
    let read = input.read_until(b'\n', text);
    let size = read.map_err(|error| Failure::Unreadable { name: name.to_string(), error })?;
    if text.last() == Some(&b'\n') {
        text.pop();
    }
    Ok(size > 0)
}

fn obey(line: Line, tree: &mut Tree, out: &mut dyn Write) -> io::Result<()> {
    match line {
        Line::Request(kind, asked) => request(kind, asked, tree, out),
        Line::Setting(kind, asked, limit) => set_limit(kind, asked, limit, tree, out),
        Line::Send(from, to) => way::send(from, to, tree, out),
        Line::Tree => tree.show(out),
        Line::Nothing => Ok(()),
    }
}

fn request(kind: Kind, asked: Address, tree: &mut Tree, out: &mut dyn Write) -> io::Result<()> {
    write!(out, "{kind} of {asked}:")?;
    match tree.request(kind, asked) {
        None => writeln!(out, " no such node"),
        Some(Ok(child)) => writeln!(out, " {child}"),
        Some(Err(refusal)) => writeln!(out, " refused {}", refusal.number()),
    }
}

fn set_limit(kind: Kind, asked: Address, limit: u64, tree: &mut Tree, out: &mut dyn Write) -> io::Result<()> {
    write!(out, "limit {asked} {kind}s {limit}:")?;
    match tree.set_limit(kind, asked, limit) {
        None => writeln!(out, " no such node"),
        Some(Ok(())) => writeln!(out, " set"),
        Some(Err(refusal)) => writeln!(out, " refused {}", refusal.number()),
    }
}
