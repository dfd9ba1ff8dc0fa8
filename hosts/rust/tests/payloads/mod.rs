//! Packets whose payload is empty, by the sentences of request Eight: each fault of a header with nothing behind it, each answer that a next hop
//! could have been, headers read back, and packets through trees. Each packet is tried with an empty payload and with one that isn't.
use crate::document::{self, Kind};
use crate::limits::{Line, Trees, KINDS};
use crate::{shown, Random, Seen, MILLION};
use pasa::sys::{self, Hop, Node, Read};
use pasa::HEADER_MOST;
use std::collections::BTreeMap;

fn read(packet: &[u8]) -> Read {
    unsafe { sys::pasa_header_read(packet.as_ptr(), packet.len()) }
}

fn next_hop(node: Node, packet: &[u8]) -> Hop {
    unsafe { sys::pasa_packet_next_hop(node, packet.as_ptr(), packet.len()) }
}

fn followed_by(header: &[u8], payload: &[u8]) -> Vec<u8> {
    [header, payload].concat()
}

/// The root's record, and a bad one: a host has no children.
const GOOD: Node = Node { address: 1, routers: 2, hosts: 2, router_limit: 64, host_limit: 64 };
const BAD: Node = Node { address: 0b11, ..GOOD };

/// Reading the packet is refused so, and so is its next hop; but 1 comes before any.
fn refused(packet: &[u8], refusal: u8) {
    assert_eq!(read(packet), Read { address: 0, place: 0, refusal }, "reading {}", shown(packet));
    assert_eq!(next_hop(GOOD, packet), Hop { node: 0, refusal, action: 0 }, "the next hop of {}", shown(packet));
    assert_eq!(next_hop(BAD, packet), Hop { node: 0, refusal: 1, action: 0 }, "the next hop of {}at a bad record", shown(packet));
}

/// The same of a header alone and with a payload octet.
fn refused_both_ways(header: &[u8], refusal: u8) {
    refused(header, refusal);
    refused(&followed_by(header, &[0]), refusal);
}

/// The header of an address that has so many octets, 1, 2 and so on.
fn header_of_size(size: u8) -> Vec<u8> {
    let octets: Vec<u8> = (1..=size).collect();
    followed_by(&[0xF1, 0x80 + (size - 1), 0x0F], &octets)
}

/// "after every other header check": a header alone and with a payload octet, right or with a fault.
#[test]
fn after_every_other_header_check() {
    for size in 1..=8 {
        let header = header_of_size(size);
        let found = Read { address: 0x0102_0304_0506_0708 >> (8 * (8 - size)), place: header.len(), refusal: 0 };
        let with = |place: usize, octet: u8| {
            let mut changed = header.clone();
            changed[place] = octet;
            changed
        };
        refused(&header, 16);
        for end in 0..header.len() {
            refused(&header[..end], 4);
        }
        for octet in 0..=u8::MAX {
            if octet != 0xF1 {
                refused_both_ways(&with(0, octet), 5);
            }
            if octet >> 5 != 0b100 {
                refused_both_ways(&with(1, octet), 5);
            } else if octet % 32 >= 8 {
                refused_both_ways(&with(1, octet), 6);
            }
            if octet != 0x0F {
                refused_both_ways(&with(2, octet), 5);
            }
            assert_eq!(read(&followed_by(&header, &[octet])), found, "reading {}and {octet:02X}", shown(&header));
        }
        refused_both_ways(&with(3, 0), if size == 1 { 9 } else { 6 });
    }
    // a size that is not allowed: with the first three octets alone, and with as many address octets as it says
    for size in 9..=32 {
        let header = header_of_size(size);
        refused_both_ways(&header[..3], 6);
        refused_both_ways(&header, 6);
    }
}

/// A payload of any length is one, also where a length that is cut to 8 or 16 bits would be that of the header.
#[test]
fn payloads_of_any_length() {
    for size in 1..=8 {
        let header = header_of_size(size);
        let found = read(&followed_by(&header, &[0]));
        assert_eq!((found.place, found.refusal), (header.len(), 0));
        for length in (1..=600).chain([0xFFFF, 0x1_0000, 0x1_0001, 0x2_0000, 0x100_0000]) {
            let packet = followed_by(&header, &vec![0; length]);
            assert_eq!(read(&packet), found, "reading {}and {length} octets", shown(&header));
            let answer = document::next_hop(GOOD, found.address);
            assert_eq!(next_hop(GOOD, &packet), answer, "the next hop of {}and {length} octets", shown(&header));
        }
    }
}

/// "before any next-hop answer": whatever a packet for an address would be answered, its header alone is answered 16, but at a bad record.
#[test]
fn before_any_next_hop_answer() {
    let random = &mut Random(22);
    let mut answers: BTreeMap<(u8, u8), usize> = BTreeMap::new();
    for _ in 0..MILLION {
        let node = random.node();
        let destination = random.beside(node.address).max(1);
        let (header, payload) = (document::header(destination), 1 + random.below(3));
        let answer = document::next_hop(node, destination);
        let empty = Hop { node: 0, refusal: if answer.refusal == 1 { 1 } else { 16 }, action: 0 };
        assert_eq!(next_hop(node, &header), empty, "at {node:?}, {:#b}, for {destination:#b}, empty", node.address);
        let packet = followed_by(&header, &random.octets(payload));
        assert_eq!(next_hop(node, &packet), answer, "at {node:?}, {:#b}, for {}", node.address, shown(&packet));
        *answers.entry((answer.refusal, answer.action)).or_default() += 1;
    }
    println!("refusals and actions with a payload: {answers:?}");
    // a bad record, a child that is not given, delivery, to the parent, to a child
    for answer in [(1, 0), (7, 0), (0, 1), (0, 2), (0, 3)] {
        let times = answers.remove(&answer).unwrap_or(0);
        assert!(times >= 1000, "{answer:?} was the answer {times} times: the inputs are too much alike");
    }
    assert!(answers.is_empty(), "other answers: {answers:?}");
}

/// What is written for an address reads back as that address with any octet behind it, and alone is refused: "demand 2's reading back, get one
/// payload octet more; .. writing a header is unchanged".
fn read_back(address: u64, payload: u8) {
    let mut packet = [payload; HEADER_MOST + 1];
    let written = unsafe { sys::pasa_header_write(address, packet.as_mut_ptr(), HEADER_MOST) };
    let place = written.count;
    assert_eq!((written.refusal, &packet[..place]), (0, &document::header(address)[..]), "the header of {address:#b}");
    assert_eq!(read(&packet[..place]), Read { address: 0, place: 0, refusal: 16 }, "the header of {address:#b} alone");
    for end in place + 1..=packet.len() {
        assert_eq!(read(&packet[..end]), Read { address, place, refusal: 0 }, "reading back {}", shown(&packet[..end]));
    }
}

#[test]
fn headers_read_back() {
    for address in 1..0x1_0100 {
        read_back(address, address as u8);
    }
    // the least and the largest address of each size, with each octet behind it
    for size in 1..=8 {
        for address in [1 << (8 * (size - 1)), u64::MAX >> (64 - 8 * size)] {
            for payload in 0..=u8::MAX {
                read_back(address, payload);
            }
        }
    }
    let random = &mut Random(23);
    for _ in 0..MILLION / 2 {
        read_back(random.number().max(1), random.octet());
    }
}

/// What is accepted has a payload, is written for its address up to there, and without its payload is refused.
#[test]
fn what_is_accepted_has_a_payload() {
    let random = &mut Random(25);
    let mut accepted = 0;
    for _ in 0..MILLION {
        let address = random.number();
        let packet = random.packet(address);
        let Read { address, place, refusal } = read(&packet);
        if refusal != 0 {
            continue;
        }
        accepted += 1;
        assert!(place < packet.len(), "{}has no payload and is accepted", shown(&packet));
        assert_eq!(packet[..place], document::header(address), "{}is accepted", shown(&packet));
        assert_eq!(read(&packet[..place]), Read { address: 0, place: 0, refusal: 16 }, "{}without its payload", shown(&packet));
    }
    assert!(accepted >= 100_000, "{accepted} packets are accepted: the inputs are too much alike");
}

/// The packet for an address as its header alone, refused at the start, and with a payload octet, which goes this way.
fn ways(trees: &Trees, from: u64, to: u64, way: &[u64], refusal: u8) {
    let header = document::header(to);
    assert_eq!(trees.walk(from, &header), (vec![from], 16), "from {from:#b} for {to:#b}, empty");
    assert_eq!(trees.walk(from, &followed_by(&header, &[0])), (way.to_vec(), refusal), "from {from:#b} for {to:#b}");
}

/// The README's tree, with the ways there and others.
#[test]
fn ways_with_and_without_payload() {
    let mut trees = Trees::new();
    for (asked, kind) in [(0b1, Kind::Router), (0b1, Kind::Host), (0b1, Kind::Router), (0b110, Kind::Host)] {
        assert_eq!(trees.obey(asked, Line::Request(kind)), 0);
    }
    assert_eq!(trees.given, [0b1, 0b10, 0b11, 0b110, 0b1101]);
    ways(&trees, 0b11, 0b1101, &[0b11, 0b1, 0b110, 0b1101], 0);
    ways(&trees, 0b10, 0b11011, &[0b10, 0b1, 0b110], 7);
    // to itself, to the parent alone, to a child alone
    ways(&trees, 0b1, 0b1, &[0b1], 0);
    ways(&trees, 0b1101, 0b1101, &[0b1101], 0);
    ways(&trees, 0b1101, 0b110, &[0b1101, 0b110], 0);
    ways(&trees, 0b1, 0b10, &[0b1, 0b10], 0);
    // for nobody: stopped at once, and one hop on
    ways(&trees, 0b1, 0b1110, &[0b1], 7);
    ways(&trees, 0b1101, 0b1100, &[0b1101, 0b110], 7);
    ways(&trees, 0b10, u64::MAX, &[0b10, 0b1], 7);
}

/// "Demand 3 speaks of packets with at least one payload octet; an empty one stops with 16 where it starts." From every node of grown trees, for
/// every node, for every small address, present or absent, and for any.
#[test]
fn an_empty_packet_stops_where_it_starts() {
    let random = &mut Random(26);
    let mut seen = Seen::default();
    for requests in [0, 1, 2, 5, 10, 20, 40, 80] {
        let mut trees = Trees::new();
        for _ in 0..requests {
            let asked = trees.given[random.below(trees.given.len())];
            trees.obey(asked, Line::Request(KINDS[random.below(2)]));
        }
        for from in &trees.given {
            let any: Vec<u64> = (0..64).map(|_| random.beside(*from).max(1)).collect();
            for to in trees.given.iter().copied().chain(1..256).chain(any) {
                seen.add(trees.send(*from, to, &[]));
                seen.add(trees.send(*from, to, &[random.octet()]));
            }
        }
    }
    seen.met(&[0, 7, 16]);
}
