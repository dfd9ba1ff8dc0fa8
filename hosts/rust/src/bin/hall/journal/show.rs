//! `hall journal show FILE` and `hall journal draw FILE`.
use super::{check, file};
use crate::describe::Kind;
use crate::draw::picture;
use crate::trace::tree::Tree;
use crate::Done;
use pasa::Address;
use std::ffi::OsStr;
use std::io::Write;

/// The nodes of the journal that a word names, in the order given, as words and as addresses.
fn read(word: &OsStr) -> Result<(Vec<u64>, Vec<Address>), crate::Failure> {
    let words = check::nodes(&file::read(word)?)?;
    let address = |word: &u64| Address::new(*word).expect("recovered words are addresses");
    let addresses = words.iter().map(address).collect();
    Ok((words, addresses))
}

fn parent(address: Address) -> String {
    address.parent().map_or("none".to_string(), |parent| parent.to_string())
}

pub fn list(word: &OsStr, out: &mut dyn Write) -> Done {
    let (words, nodes) = read(word)?;
    let widest = |column: fn(Address) -> String| nodes.iter().map(|address| column(*address).len()).max().unwrap_or(0);
    let (of_address, of_parent) = (widest(|address| address.to_string()), widest(parent));
    writeln!(out, "nodes {}", nodes.len())?;
    for address in nodes {
        let record = pasa::recovered_record(&words, address).expect("a recovered node has a record");
        let (digits, parent) = (address.to_string(), parent(address));
        write!(out, "{digits:of_address$} {:6} depth {} parent {parent:of_parent$}", Kind::of(address), address.depth())?;
        writeln!(out, " routers {} hosts {}", record.routers(), record.hosts())?;
    }
    Ok(())
}

/// A picture has each node behind its parent, with all that is below it, as a plan has: the order of the tree, not that of the journal.
pub fn draw(word: &OsStr, out: &mut dyn Write) -> Done {
    let (_, nodes) = read(word)?;
    picture::draw(&Tree::grown(&nodes).addresses(), out)?;
    Ok(())
}
