//! The way of a packet through the tree.
use super::tree::Tree;
use pasa::{Address, Hop, HEADER_MOST, PATH_MOST};
use std::fmt;
use std::io::{self, Write};

/// "Its hops are its length less one."
struct Hops(usize);

impl fmt::Display for Hops {
    fn fmt(&self, f: &mut fmt::Formatter<'_>) -> fmt::Result {
        let Hops(count) = *self;
        write!(f, "{count} hop{}", if count == 1 { "" } else { "s" })
    }
}

/// "Demand 3 speaks of packets with at least one payload octet": a packet here has just one, and no answer hangs on what it is.
const PAYLOAD: usize = 1;

/// Prints the way of a packet, which is a header and one payload octet.
pub fn send(from: Address, to: Address, tree: &Tree, out: &mut dyn Write) -> io::Result<()> {
    write!(out, "send {from} to {to}:")?;
    let mut octets = [0; HEADER_MOST + PAYLOAD];
    let size = pasa::write_header(to, &mut octets).expect("there is room for every header");
    walk(&octets[..size + PAYLOAD], from, tree, out)
}

/// In every tree that requests and settings grow, a packet meets at most as many nodes as a path has, and each is in the tree; the other two endings
/// are there so that no fault could run on.
fn walk(packet: &[u8], from: Address, tree: &Tree, out: &mut dyn Write) -> io::Result<()> {
    let mut at = from;
    for hops in 0..PATH_MOST {
        let Some(node) = tree.node(at) else {
            return writeln!(out, " no such node");
        };
        write!(out, " {at}")?;
        match node.packet_next_hop(packet) {
            Ok(Hop::Deliver(_)) => return writeln!(out, " delivered, {}", Hops(hops)),
            Ok(Hop::Parent(next) | Hop::Child(next)) => at = next,
            Err(refusal) => return writeln!(out, " refused {}, {}", refusal.number(), Hops(hops)),
        }
    }
    writeln!(out, " no end")
}
