//! `hall draw FILE`: a picture of a plan's hall.
mod layout;
pub mod picture;

use crate::commands::Command;
use crate::{plan, Done};
use std::ffi::OsString;
use std::io::Write;

const USAGE: &str = "usage: hall draw FILE";

pub const COMMAND: Command = Command {
    name: "draw",
    usage: USAGE,
    list: "  draw FILE                 the same hall as a picture (SVG) on standard output\n",
    help: "\
Reads a hall plan as 'hall plan' does and writes a picture of the hall, an SVG document,
to standard output. Depth goes from left to right, and each node has a row of its own
with its address, in the order of the text: the root is a diamond, a router a square, a
host a circle. In an address the bits of the parent are pale and those of the last step
bold. A browser shows address, kind, depth and parent of the node under the pointer.

    $ echo 'R(R(H)H)' | hall draw - > hall.svg
",
    run,
};

fn run(words: &[OsString], out: &mut dyn Write) -> Done {
    let nodes = plan::read(plan::file(words, USAGE)?)?;
    picture::draw(&nodes, out)?;
    Ok(())
}
