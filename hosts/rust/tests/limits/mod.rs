//! Limits beside the specification: every count, limit and setting about the boundaries, and lists of requests and settings, refused ones among
//! them, anywhere, with packets through the trees that they leave.
use crate::document::{self, Kind};
use crate::{shown, Random, Seen, MILLION};
use pasa::sys::{self, Child, Limited, Node};
use pasa::{Address, Hop, Refusal, PATH_MOST};
use std::collections::BTreeMap;

pub const KINDS: [Kind; 2] = [Kind::Router, Kind::Host];

/// Counts and limits about every boundary of an octet, of 64 and of nothing.
const ABOUT: [u8; 13] = [0, 1, 2, 3, 31, 62, 63, 64, 65, 66, 128, 254, 255];

/// Limits to set that a record cannot hold: cut to an octet, some of them would be good.
const WIDE: [u64; 9] = [256, 257, 256 + 63, 256 + 64, 1 << 16, 1 << 32, (1 << 32) + 1, 1 << 63, u64::MAX];

fn settings() -> impl Iterator<Item = u64> {
    ABOUT.into_iter().map(u64::from).chain(WIDE)
}

fn asked(node: Node, kind: Kind) -> Child {
    match kind {
        Kind::Router => unsafe { sys::pasa_child_router(node) },
        Kind::Host => unsafe { sys::pasa_child_host(node) },
    }
}

fn set(node: Node, kind: Kind, limit: u64) -> Limited {
    match kind {
        Kind::Router => unsafe { sys::pasa_limit_routers(node, limit) },
        Kind::Host => unsafe { sys::pasa_limit_hosts(node, limit) },
    }
}

/// How often each refusal was the answer to a request and to a setting.
#[derive(Default)]
struct Met {
    asked: Seen,
    set: Seen,
}

impl Met {
    fn ask(&mut self, node: Node, kind: Kind) {
        let got = asked(node, kind);
        assert_eq!(got, document::child(node, kind), "a {kind:?} of {node:?}, {:#b}", node.address);
        self.asked.add(got.refusal);
    }

    fn set(&mut self, node: Node, kind: Kind, limit: u64) {
        let got = set(node, kind, limit);
        assert_eq!(got, document::limited(node, kind, limit), "the limit {limit} on {kind:?}s of {node:?}, {:#b}", node.address);
        self.set.add(got.refusal);
    }
}

/// Addresses of every sort: none, the root, the shortest routers and hosts, the two longest of each.
const ADDRESSES: [u64; 10] = [0, 1, 0b10, 0b11, 0b110, 0b101, 1 << 62, (1 << 62) + 1, 1 << 63, u64::MAX];

/// Every record whose four numbers are about a boundary, asked for both kinds; each setting of it in its turn.
fn every_record(met: &mut Met) {
    let mut turns = KINDS.map(|_| settings().collect::<Vec<_>>().into_iter().cycle());
    for address in ADDRESSES {
        for (routers, hosts) in ABOUT.iter().flat_map(|a| ABOUT.map(|b| (*a, b))) {
            for (router_limit, host_limit) in ABOUT.iter().flat_map(|a| ABOUT.map(|b| (*a, b))) {
                let node = Node { address, routers, hosts, router_limit, host_limit };
                for (kind, turn) in KINDS.into_iter().zip(&mut turns) {
                    met.ask(node, kind);
                    met.set(node, kind, turn.next().unwrap());
                }
            }
        }
    }
}

/// Every count, limit and setting up to 66 of one kind, the other without a limit, at the root.
fn every_setting(met: &mut Met) {
    for kind in KINDS {
        for (count, limit) in (0..=66).flat_map(|count| (0..=66).map(move |limit| (count, limit))) {
            let bare = document::fresh(1);
            let node = match kind {
                Kind::Router => Node { routers: count, router_limit: limit, ..bare },
                Kind::Host => Node { hosts: count, host_limit: limit, ..bare },
            };
            for setting in (0..=66).chain(WIDE) {
                met.set(node, kind, setting);
            }
        }
    }
}

impl Random {
    /// A limit to set on so many children.
    fn setting(&mut self, count: u8) -> u64 {
        match self.below(8) {
            0 => self.number(),
            1 => WIDE[self.below(WIDE.len())],
            2 => u64::from(ABOUT[self.below(ABOUT.len())]),
            3 => u64::from(count.wrapping_sub(1)),
            4 => 64,
            _ => u64::from(self.limit(count)),
        }
    }
}

#[test]
fn limits_of_records() {
    let met = &mut Met::default();
    every_record(met);
    assert_eq!((met.asked.inputs(), met.set.inputs()), (571_220, 571_220));
    every_setting(met);
    assert_eq!(met.set.inputs(), 571_220 + 682_328);
    let random = &mut Random(18);
    for _ in 0..MILLION {
        let node = random.node();
        let (routers, hosts) = (random.setting(node.routers), random.setting(node.hosts));
        met.set(node, Kind::Router, routers);
        met.set(node, Kind::Host, hosts);
        met.ask(node, Kind::Router);
        met.ask(node, Kind::Host);
    }
    met.asked.often(&[0, 1, 2, 3, 15]);
    met.set.often(&[0, 1]);
}

/// A tree as the specification has it, and the same by the crate: the record of each node.
pub struct Trees {
    document: BTreeMap<u64, Node>,
    crates: BTreeMap<u64, pasa::Node>,
    /// the addresses in the order given
    pub given: Vec<u64>,
}

/// A line of a list: what is asked of a node, or the limit that is to be set.
#[derive(Clone, Copy, Debug)]
pub enum Line {
    Request(Kind),
    Setting(Kind, u64),
}

fn number(refusal: Refusal) -> u8 {
    refusal.number()
}

impl Trees {
    /// "from a bare root"
    pub fn new() -> Trees {
        let mut trees = Trees { document: BTreeMap::new(), crates: BTreeMap::new(), given: Vec::new() };
        trees.take_in(1);
        trees
    }

    fn take_in(&mut self, address: u64) {
        let doubled = self.document.insert(address, document::fresh(address));
        assert_eq!(doubled, None, "{address:#b} is given twice");
        self.crates.insert(address, pasa::Node::fresh(Address::new(address).unwrap()));
        self.given.push(address);
    }

    /// One line at a node that is there: "made with that node's record and handing one back as a request does". Answers the refusal's number.
    pub fn obey(&mut self, at: u64, line: Line) -> u8 {
        let node = self.document[&at];
        let (record, refusal, child) = match line {
            Line::Request(kind) => {
                let Child { node, child, refusal } = document::child(node, kind);
                (node, refusal, child)
            }
            Line::Setting(kind, limit) => {
                let Limited { node, refusal } = document::limited(node, kind, limit);
                (node, refusal, 0)
            }
        };
        self.document.insert(at, record);
        assert_eq!(self.obey_by_the_crate(at, line), (record, refusal, child), "{line:?} at {at:#b}, {node:?}");
        if child != 0 {
            self.take_in(child);
        }
        refusal
    }

    /// The record that the node has behind the line, the refusal and the child.
    fn obey_by_the_crate(&mut self, at: u64, line: Line) -> (Node, u8, u64) {
        let node = self.crates.get_mut(&at).unwrap();
        let answer = match line {
            Line::Request(Kind::Router) => node.router_child().map(Address::number),
            Line::Request(Kind::Host) => node.host_child().map(Address::number),
            Line::Setting(Kind::Router, limit) => node.set_router_limit(limit).map(|()| 0),
            Line::Setting(Kind::Host, limit) => node.set_host_limit(limit).map(|()| 0),
        };
        let record = Node {
            address: node.address().number(),
            routers: node.routers(),
            hosts: node.hosts(),
            router_limit: node.router_limit(),
            host_limit: node.host_limit(),
        };
        (record, answer.map_or_else(number, |_| 0), answer.unwrap_or(0))
    }

    /// The nodes that a packet meets, and the refusal that stops it, 0 where it is delivered.
    pub fn walk(&self, from: u64, packet: &[u8]) -> (Vec<u64>, u8) {
        let mut met = vec![from];
        while met.len() <= PATH_MOST {
            let node = &self.crates[met.last().unwrap()];
            match node.packet_next_hop(packet) {
                Ok(Hop::Deliver(named)) => {
                    assert_eq!(Some(&named.number()), met.last(), "a delivery from {from:#b} of {}names another node", shown(packet));
                    return (met, 0);
                }
                Ok(Hop::Parent(next) | Hop::Child(next)) => met.push(next.number()),
                Err(refusal) => return (met, refusal.number()),
            }
        }
        panic!("a packet from {from:#b}, {}meets more nodes than a path has: {met:x?}", shown(packet));
    }

    /// "the deepest of d's ancestors in the tree": the nodes on d's way from the root, d itself among them.
    fn deepest(&self, d: u64) -> u64 {
        let steps = document::steps(&document::bits(d));
        let on_the_way = (0..=steps.len()).rev().map(|k| document::number(&document::spelled(&steps[..k])));
        on_the_way.into_iter().find(|address| self.document.contains_key(address)).unwrap()
    }

    /// Demand 3: the packet arrives along the path, or stops with 7 at the deepest ancestor; "an empty one stops with 16 where it starts".
    pub fn send(&self, from: u64, to: u64, payload: &[u8]) -> u8 {
        let packet = [&document::header(to), payload].concat();
        let end = self.deepest(to);
        let expected = match payload {
            [] => (vec![from], 16),
            _ => (document::way(from, end), if end == to { 0 } else { 7 }),
        };
        assert_eq!(self.walk(from, &packet), expected, "from {from:#b}, {}among {:x?}", shown(&packet), self.given);
        expected.1
    }
}

impl Random {
    fn kind(&mut self) -> Kind {
        KINDS[self.below(2)]
    }

    /// A node of the tree: the router given last so often out of eight, so that some trees are deep, or any other.
    fn node_of(&mut self, trees: &Trees, late: usize) -> u64 {
        if self.below(8) < late {
            return *trees.given.iter().rev().find(|address| **address % 2 == 0).unwrap_or(&1);
        }
        trees.given[self.below(trees.given.len())]
    }

    /// A line for a node, a setting so often out of eight.
    fn line(&mut self, node: Node, settings: usize) -> Line {
        let kind = self.kind();
        if self.below(8) >= settings {
            return Line::Request(kind);
        }
        let count = match kind {
            Kind::Router => node.routers,
            Kind::Host => node.hosts,
        };
        Line::Setting(kind, self.setting(count))
    }
}

/// "its list may now also hold settings of a limit, refused ones included, anywhere in it, each at the root or an address given earlier in the
/// list"
#[test]
fn trees_under_limits() {
    let (random, payloads) = (&mut Random(19), &mut Random(24));
    let (mut requests, mut settings, mut ways) = (Seen::default(), Seen::default(), Seen::default());
    while requests.inputs() < MILLION / 2 {
        let mut trees = Trees::new();
        let (late, often, lines) = (random.below(9), 1 + random.below(6), 1 << random.below(10));
        for _ in 0..lines {
            let at = random.node_of(&trees, late);
            let line = random.line(trees.document[&at], often);
            let refusal = trees.obey(at, line);
            match line {
                Line::Request(_) => requests.add(refusal),
                Line::Setting(_, _) => settings.add(refusal),
            }
        }
        for _ in 0..lines {
            let from = trees.given[random.below(trees.given.len())];
            let to = match random.below(4) {
                0 => random.beside(from),
                1 => random.number(),
                _ => trees.given[random.below(trees.given.len())],
            };
            let octets = 1 + payloads.below(3);
            ways.add(trees.send(from, to.max(1), &payloads.octets(octets)));
            ways.add(trees.send(from, to.max(1), &[]));
        }
    }
    requests.met(&[0, 2, 3, 15]);
    settings.met(&[0, 1]);
    ways.met(&[0, 7, 16]);
}

/// The root alone: a limit of each kind, children up to it and one more, and the limit raised, for every limit from 0 to 64.
#[test]
fn a_limit_is_reached_and_raised() {
    for (kind, limit) in KINDS.iter().flat_map(|kind| (0..=64).map(move |limit| (*kind, limit))) {
        let mut trees = Trees::new();
        assert_eq!(trees.obey(1, Line::Setting(kind, limit)), 0);
        let given = limit.min(63);
        for _ in 0..given {
            assert_eq!(trees.obey(1, Line::Request(kind)), 0);
        }
        let full = if limit == 64 { 3 } else { 15 };
        assert_eq!(trees.obey(1, Line::Request(kind)), full, "child {given} of {kind:?} under {limit}");
        if given > 0 {
            assert_eq!(trees.obey(1, Line::Setting(kind, given - 1)), 1);
        }
        assert_eq!(trees.obey(1, Line::Setting(kind, given)), 0);
        assert_eq!(trees.obey(1, Line::Request(kind)), 15);
        assert_eq!(trees.obey(1, Line::Setting(kind, 64)), 0);
        assert_eq!(trees.obey(1, Line::Request(kind)), if given < 63 { 0 } else { 3 });
    }
}
