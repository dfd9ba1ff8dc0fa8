//! The tree that a trace grows: the record of each node, by its address.
use crate::kind::Kind;
use crate::text::counted;
use pasa::{Address, Node, Refusal};
use std::collections::BTreeMap;
use std::io::{self, Write};

/// Where an address stands in the order of bit strings: by the bits that two of them both have, and the shorter first where these are the
/// same. So every node comes before what is below it, and all of that before anything else.
#[derive(PartialEq, Eq, PartialOrd, Ord)]
struct Position {
    /// the bit string, left-justified
    bits: u64,
    length: u32,
}

impl Position {
    fn of(address: Address) -> Position {
        let length = address.bit_length();
        Position { bits: address.number() << (Address::LONGEST - length), length }
    }
}

pub struct Tree {
    nodes: BTreeMap<Position, Node>,
}

impl Tree {
    /// The tree of the root alone.
    pub fn new() -> Tree {
        let mut tree = Tree { nodes: BTreeMap::new() };
        tree.take_in(Address::ROOT);
        tree
    }

    /// The tree of a plan or of a journal, grown by its own requests: each node of it, in its order, is asked of its parent. An answer that is
    /// not the address there stops the program.
    pub fn grown(nodes: &[Address]) -> Tree {
        let mut tree = Tree::new();
        assert_eq!(nodes.first(), Some(&Address::ROOT), "a hall begins with the root");
        for address in &nodes[1..] {
            let kind = if address.is_host() { Kind::Host } else { Kind::Router };
            let given = address.parent().and_then(|parent| tree.request(kind, parent));
            assert_eq!(given, Some(Ok(*address)), "a hall's requests give its addresses");
        }
        tree
    }

    fn take_in(&mut self, address: Address) {
        self.nodes.insert(Position::of(address), Node::fresh(address));
    }

    /// The addresses of its nodes, each behind its parent, with all that is below it behind it.
    pub fn addresses(&self) -> Vec<Address> {
        self.nodes.values().map(Node::address).collect()
    }

    pub fn node(&self, address: Address) -> Option<&Node> {
        self.nodes.get(&Position::of(address))
    }

    /// Asks a node for a child and takes the child into the tree; nothing where the node is not in it.
    pub fn request(&mut self, kind: Kind, asked: Address) -> Option<Result<Address, Refusal>> {
        let node = self.nodes.get_mut(&Position::of(asked))?;
        let answer = kind.child_of(node);
        if let Ok(child) = answer {
            self.take_in(child);
        }
        Some(answer)
    }

    /// Sets a limit of a node; nothing where the node is not in the tree.
    pub fn set_limit(&mut self, kind: Kind, asked: Address, limit: u64) -> Option<Result<(), Refusal>> {
        let node = self.nodes.get_mut(&Position::of(asked))?;
        Some(kind.limit_of(node, limit))
    }

    /// Prints a line for each node, each behind its parent.
    pub fn show(&self, out: &mut dyn Write) -> io::Result<()> {
        writeln!(out, "tree")?;
        for node in self.nodes.values() {
            row(node, out)?;
        }
        Ok(())
    }
}

/// Two spaces for each step of the depth, the address, and the children of each kind that the node has given, with their limit where they have
/// one.
fn row(node: &Node, out: &mut dyn Write) -> io::Result<()> {
    let address = node.address();
    let indent = 2 * address.depth() as usize;
    let (routers, hosts) = (counted(node.routers(), node.router_limit()), counted(node.hosts(), node.host_limit()));
    writeln!(out, "{:indent$}{address} routers {routers} hosts {hosts}", "")
}
