//! Each export beside the specification on bit strings (`document`), on at least a million inputs: every small one, boundaries, damaged
//! ones, every beginning of valid packets, and random ones by fixed seeds. A failure prints the input.
mod document;
mod fields;
mod journals;
mod limits;
mod payloads;
mod plans;

use document::Kind;
use pasa::sys::{self, Node};

const MILLION: usize = 1_000_000;

struct Random(u64);

impl Random {
    fn next(&mut self) -> u64 {
        self.0 = self.0.wrapping_add(0x9E37_79B9_7F4A_7C15);
        let mut z = self.0;
        z = (z ^ (z >> 30)).wrapping_mul(0xBF58_476D_1CE4_E5B9);
        z = (z ^ (z >> 27)).wrapping_mul(0x94D0_49BB_1331_11EB);
        z ^ (z >> 31)
    }

    /// A number below n.
    fn below(&mut self, n: usize) -> usize {
        (self.next() % n as u64) as usize
    }

    fn octet(&mut self) -> u8 {
        self.next() as u8
    }

    fn octets(&mut self, count: usize) -> Vec<u8> {
        (0..count).map(|_| self.octet()).collect()
    }

    /// Any number: about the boundaries, or of any bit length, with bits that are even, mostly ones or mostly zeros.
    fn number(&mut self) -> u64 {
        let length = self.below(64) as u32;
        let near = (self.below(5) as u64).wrapping_sub(2);
        match self.below(8) {
            0 => near,
            1 => (1u64 << length).wrapping_add(near),
            2 => u64::MAX >> length,
            3 => (self.next() | self.next() | self.next() | 1 << 63) >> length,
            4 => (self.next() & self.next() & self.next() | 1 << 63) >> length,
            _ => (self.next() | 1 << 63) >> length,
        }
    }

    /// A limit on so many children: mostly none, or one that is at, above or below their number, or about the highest.
    fn limit(&mut self, count: u8) -> u8 {
        match self.below(16) {
            0 => self.octet(),
            1 => 63 + self.below(4) as u8,
            2 => count.wrapping_sub(1),
            3..=5 => count,
            6 => count.wrapping_add(1),
            7 => self.below(65) as u8,
            _ => 64,
        }
    }

    /// A node's record: mostly good, and about the limits of its counts.
    fn node(&mut self) -> Node {
        let address = self.number();
        let room = address.leading_zeros() as u8;
        let mut count = || match self.below(8) {
            0 => self.octet(),
            1 => room.wrapping_add(1),
            2 => room.wrapping_sub(1),
            3 => room,
            _ => self.below(usize::from(room) + 1) as u8,
        };
        let (mut routers, mut hosts) = (count(), count());
        if address % 2 == 1 && address > 1 && self.below(8) != 0 {
            (routers, hosts) = (0, 0);
        }
        Node { address, routers, hosts, router_limit: self.limit(routers), host_limit: self.limit(hosts) }
    }

    /// A number for which something is to be decided beside the one given: it itself, one above or below it, or one that differs little.
    fn beside(&mut self, number: u64) -> u64 {
        let more = self.below(64) as u32;
        let below = number.checked_shl(more).unwrap_or(0) | self.next() & ((1 << more) - 1);
        match self.below(8) {
            0 => number,
            1 => number >> more,
            2 => number ^ 1 << more,
            3 => self.number(),
            4 => number.checked_shl(more).unwrap_or(0) | ((1 << more) - 1),
            _ => below,
        }
    }

    /// A packet: a right header with none to three octets behind it; or one octet of it damaged, cut off, or any octets.
    fn packet(&mut self, address: u64) -> Vec<u8> {
        let payload = self.below(4);
        let mut packet = document::header(address.max(1));
        packet.extend(self.octets(payload));
        let at = self.below(packet.len());
        match self.below(8) {
            0 => packet[at] = self.octet(),
            1 => packet[at] ^= 1 << self.below(8),
            2 => packet.truncate(at),
            // more octets than needed, or a size that is not allowed
            3 => {
                let size = self.below(33) as u8;
                packet[1] = 0x80 | (size.wrapping_sub(1) % 32);
                let zeros = self.below(8);
                packet.splice(3..3, std::iter::repeat(0).take(zeros));
            }
            4 => {
                let count = self.below(14);
                packet = self.octets(count);
                for (octet, right) in packet.iter_mut().zip([0xF1, 0x80, 15]) {
                    *octet = right;
                }
                if count > 1 {
                    packet[1] = 0x80 | (self.octet() % 10);
                }
            }
            _ => (),
        }
        packet
    }
}

/// How often each refusal was the answer.
#[derive(Default)]
struct Seen([usize; 18]);

impl Seen {
    fn add(&mut self, refusal: u8) {
        self.0[usize::from(refusal)] += 1;
    }

    fn and(mut self, other: Seen) -> Seen {
        for (times, more) in self.0.iter_mut().zip(other.0) {
            *times += more;
        }
        self
    }

    fn inputs(&self) -> usize {
        self.0.iter().sum()
    }

    /// Each of these refusals, done among them, was met often, and no other was met.
    fn met(&self, refusals: &[u8]) {
        for (refusal, times) in self.0.iter().enumerate() {
            if refusals.contains(&(refusal as u8)) {
                assert!(*times >= 1000, "refusal {refusal} was the answer {times} times: the inputs are too much alike");
            } else {
                assert_eq!(*times, 0, "refusal {refusal} was the answer");
            }
        }
        println!("{} inputs, answers by refusal {:?}", self.inputs(), self.0);
    }

    /// The same, of as many inputs as each export has.
    fn often(&self, refusals: &[u8]) {
        self.met(refusals);
        let inputs = self.inputs();
        assert!(inputs >= MILLION, "{inputs} inputs");
    }
}

fn shown(octets: &[u8]) -> String {
    octets.iter().map(|octet| format!("{octet:02X} ")).collect()
}

#[test]
fn fresh() {
    let random = &mut Random(1);
    for i in 0..MILLION as u64 + 4096 {
        let address = if i < 4096 { i } else { random.number() };
        let got = unsafe { sys::pasa_fresh(address) };
        assert_eq!(got, document::fresh(address), "address {address:#b}");
    }
}

#[test]
fn addresses_by_themselves() {
    let random = &mut Random(11);
    for i in 0..MILLION as u64 + 4096 {
        let address = if i < 4096 { i } else { random.number() };
        let bits = document::bits(address);
        let got =
            unsafe { (sys::pasa_parent(address), sys::pasa_depth(address), sys::pasa_bit_length(address), sys::pasa_is_host(address)) };
        let expected = (document::parent(&bits), document::depth(&bits) as u32, bits.len() as u32, u8::from(document::is_host(&bits)));
        assert_eq!(got, expected, "address {address:#b}");
    }
}

fn child(node: Node, seen: &mut Seen) {
    let routers = unsafe { sys::pasa_child_router(node) };
    assert_eq!(routers, document::child(node, Kind::Router), "a router of {node:?}, {:#b}", node.address);
    let hosts = unsafe { sys::pasa_child_host(node) };
    assert_eq!(hosts, document::child(node, Kind::Host), "a host of {node:?}, {:#b}", node.address);
    seen.add(routers.refusal);
}

#[test]
fn children_of_both_kinds() {
    let seen = &mut Seen::default();
    // every record of a small address, and of the two longest lengths of a router and of a host
    for address in (0..16).chain([1 << 62, 1 << 63, (1 << 62) + 1, u64::MAX]) {
        for counts in 0..=u16::MAX {
            child(Node { routers: counts as u8, hosts: (counts >> 8) as u8, ..document::fresh(address) }, seen);
        }
    }
    let random = &mut Random(2);
    for _ in 0..MILLION {
        child(random.node(), seen);
    }
    seen.often(&[0, 1, 2, 3, 15]);
}

fn next_hop(node: Node, destination: u64, seen: &mut Seen) {
    let got = unsafe { sys::pasa_next_hop(node, destination) };
    assert_eq!(got, document::next_hop(node, destination), "at {node:?}, {:#b}, for {destination:#b}", node.address);
    seen.add(got.refusal);
}

#[test]
fn next_hops_from_addresses() {
    let seen = &mut Seen::default();
    // every pair of small addresses, with a good record and with two that may be bad
    for address in 0..512 {
        for destination in 0..512 {
            for (routers, hosts) in [(0, 0), (1, 2), (3, 0)] {
                next_hop(Node { routers, hosts, ..document::fresh(address) }, destination, seen);
            }
        }
    }
    let random = &mut Random(3);
    for _ in 0..MILLION {
        let node = random.node();
        let destination = random.beside(node.address);
        next_hop(node, destination, seen);
    }
    seen.often(&[0, 1, 7, 9]);
}

fn packet_next_hop(node: Node, packet: &[u8], seen: &mut Seen) {
    let got = unsafe { sys::pasa_packet_next_hop(node, packet.as_ptr(), packet.len()) };
    assert_eq!(got, document::packet_next_hop(node, packet), "at {node:?}, {:#b}, for {}", node.address, shown(packet));
    seen.add(got.refusal);
}

#[test]
fn next_hops_from_packets() {
    let random = &mut Random(4);
    let (mut seen, mut mixed) = (Seen::default(), Seen::default());
    // every beginning of valid packets, the header alone among them
    for _ in 0..20_000 {
        let node = random.node();
        let mut packet = document::header(random.beside(node.address).max(1));
        packet.push(random.octet());
        for end in 0..=packet.len() {
            packet_next_hop(node, &packet[..end], &mut seen);
        }
    }
    for _ in 0..MILLION {
        let node = random.node();
        let destination = random.beside(node.address);
        let packet = random.packet(destination);
        packet_next_hop(node, &packet, &mut mixed);
    }
    mixed.often(&[0, 1, 4, 5, 6, 7, 9, 16]);
    seen.and(mixed).often(&[0, 1, 4, 5, 6, 7, 9, 16]);
}

#[test]
fn next_hops_for_many() {
    let random = &mut Random(5);
    let mut answered = 0;
    for _ in 0..MILLION {
        let node = random.node();
        let full = random.below(8);
        let mut length = || if random.below(2) == 0 { full } else { random.below(8) };
        let lengths = [length(), length(), length(), length()];
        let destinations: Vec<u64> = (0..lengths[0]).map(|_| random.beside(node.address)).collect();
        let nodes: Vec<u64> = (0..lengths[1]).map(|_| random.next()).collect();
        let actions = random.octets(lengths[2]);
        let refusals = random.octets(lengths[3]);
        let (mut got_nodes, mut got_actions, mut got_refusals) = (nodes.clone(), actions.clone(), refusals.clone());
        let count = unsafe {
            sys::pasa_next_hops(
                node,
                destinations.as_ptr(),
                destinations.len(),
                got_nodes.as_mut_ptr(),
                got_nodes.len(),
                got_actions.as_mut_ptr(),
                got_actions.len(),
                got_refusals.as_mut_ptr(),
                got_refusals.len(),
            )
        };
        let (mut nodes, mut actions, mut refusals) = (nodes, actions, refusals);
        let least = *lengths.iter().min().unwrap();
        answered += least;
        for (i, destination) in destinations[..least].iter().enumerate() {
            let hop = document::next_hop(node, *destination);
            (nodes[i], actions[i], refusals[i]) = (hop.node, hop.action, hop.refusal);
        }
        assert_eq!(
            (count, got_nodes, got_actions, got_refusals),
            (least, nodes, actions, refusals),
            "at {node:?} for {destinations:?}, lengths {lengths:?}"
        );
    }
    assert!(answered >= MILLION, "{answered} destinations answered");
}

fn header_write(address: u64, buffer: &[u8], seen: &mut Seen) {
    let (mut got_buffer, mut expected_buffer) = (buffer.to_vec(), buffer.to_vec());
    let got = unsafe { sys::pasa_header_write(address, got_buffer.as_mut_ptr(), got_buffer.len()) };
    let expected = document::header_write(address, &mut expected_buffer);
    assert_eq!((got, got_buffer), (expected, expected_buffer), "the header of {address:#b} into {}", shown(buffer));
    seen.add(got.refusal);
}

#[test]
fn header_writes() {
    let random = &mut Random(6);
    let seen = &mut Seen::default();
    for length in 0..=13 {
        let buffer = random.octets(length);
        for address in 0..0x1_0100 {
            header_write(address, &buffer, seen);
        }
    }
    for _ in 0..MILLION {
        let length = random.below(16);
        let buffer = random.octets(length);
        header_write(random.number(), &buffer, seen);
    }
    seen.often(&[0, 9, 10]);
}

fn header_read(packet: &[u8], seen: &mut Seen) {
    let got = unsafe { sys::pasa_header_read(packet.as_ptr(), packet.len()) };
    assert_eq!(got, document::header_read(packet), "reading {}", shown(packet));
    seen.add(got.refusal);
}

#[test]
fn header_reads() {
    let (mut seen, mut mixed) = (Seen::default(), Seen::default());
    // every value of the first two octets, of the two behind the first, and of the address's first two; each whole, and without its last octet or
    // the last two, so that an address octet is missing, or the payload is empty, or it is there
    for first in 0..=u16::MAX {
        let [a, b] = first.to_be_bytes();
        for packet in [
            &[a, b, 15, 1, b][..],
            &[0xF1, a, b, 1, 0, 1, 0, 1, 0, 1, 0, b],
            &[0xF1, 0x80, 15, a, b, a],
            &[0xF1, 0x81, 15, a, b, a],
            &[0xF1, 0x82, 15, a, b, 0, b],
        ] {
            for end in packet.len() - 2..=packet.len() {
                header_read(&packet[..end], &mut seen);
            }
        }
    }
    // every beginning of valid packets, the header alone among them
    let random = &mut Random(7);
    for _ in 0..50_000 {
        let mut packet = document::header(random.number().max(1));
        packet.push(random.octet());
        for end in 0..=packet.len() {
            header_read(&packet[..end], &mut seen);
        }
    }
    for _ in 0..MILLION {
        let address = random.number();
        let packet = random.packet(address);
        header_read(&packet, &mut mixed);
    }
    mixed.often(&[0, 4, 5, 6, 9, 16]);
    seen.and(mixed).often(&[0, 4, 5, 6, 9, 16]);
}

#[test]
fn ipv6_writes() {
    let random = &mut Random(8);
    let seen = &mut Seen::default();
    for _ in 0..MILLION {
        let length = if random.below(8) == 0 { random.below(18) } else { 8 };
        let prefix = random.octets(length);
        let length = if random.below(2) == 0 { random.below(20) } else { 16 };
        let buffer = random.octets(length);
        let address = random.number();
        let (mut got_buffer, mut expected_buffer) = (buffer.clone(), buffer.clone());
        let got = unsafe { sys::pasa_ipv6_write(prefix.as_ptr(), prefix.len(), address, got_buffer.as_mut_ptr(), got_buffer.len()) };
        let expected = document::ipv6_write(&prefix, address, &mut expected_buffer);
        assert_eq!((got, got_buffer), (expected, expected_buffer), "prefix {}address {address:#b} into {}", shown(&prefix), shown(&buffer));
        seen.add(got.refusal);
    }
    seen.often(&[0, 9, 10, 12]);
}

#[test]
fn ipv6_reads() {
    let random = &mut Random(9);
    let seen = &mut Seen::default();
    for _ in 0..MILLION {
        let mut prefix = random.octets(8);
        let mut ipv6 = document::form(&prefix, random.number());
        let (at, in_prefix) = (random.below(16), random.below(8));
        match random.below(8) {
            0 => ipv6[at] ^= 1 << in_prefix,
            1 => prefix[in_prefix] = random.octet(),
            2 => ipv6.truncate(at),
            3 => ipv6.push(0),
            4 => prefix.truncate(in_prefix),
            _ => (),
        }
        let got = unsafe { sys::pasa_ipv6_read(prefix.as_ptr(), prefix.len(), ipv6.as_ptr(), ipv6.len()) };
        assert_eq!(got, document::ipv6_read(&prefix, &ipv6), "prefix {}of {}", shown(&prefix), shown(&ipv6));
        seen.add(got.refusal);
    }
    seen.often(&[0, 8, 9, 12]);
}

fn path(first: u64, second: u64, words: &[u64], seen: &mut Seen) {
    let (mut got_words, mut expected_words) = (words.to_vec(), words.to_vec());
    let got = unsafe { sys::pasa_path(first, second, got_words.as_mut_ptr(), got_words.len()) };
    let expected = document::path(first, second, &mut expected_words);
    assert_eq!((got, got_words), (expected, expected_words), "the path {first:#b} to {second:#b} into {} words", words.len());
    seen.add(got.refusal);
}

const WORDS: [u64; 128] = [0x5555_5555_5555_5555; 128];

/// Every pair of small addresses, with room enough and with little.
fn paths_of_small_addresses() -> Seen {
    let mut seen = Seen::default();
    for first in 0..1024 {
        for second in 0..1024 {
            path(first, second, &WORDS[..(first ^ second) as usize % 24], &mut seen);
        }
    }
    seen
}

fn paths_of_any_addresses() -> Seen {
    let mut seen = Seen::default();
    let random = &mut Random(10);
    for _ in 0..MILLION / 2 {
        let first = random.number();
        let second = random.beside(first);
        let length = match random.below(4) {
            0 => random.below(WORDS.len()),
            1 if first != 0 && second != 0 => document::way(first, second).len() - random.below(2),
            _ => 126,
        };
        path(first, second, &WORDS[..length], &mut seen);
    }
    // the longest
    path(0b10 << 62, 0b11 << 62, &WORDS[..126], &mut seen);
    seen
}

/// The longest of the tests, and one of the last to start: so on both cores.
#[test]
fn paths() {
    let small = std::thread::spawn(paths_of_small_addresses);
    let any = paths_of_any_addresses();
    small.join().expect("a path differs").and(any).often(&[0, 9, 10]);
}

#[test]
fn a_null_pointer_with_length_0() {
    let node = Node { routers: 2, hosts: 2, ..document::fresh(1) };
    let null = std::ptr::null::<u8>();
    let null_mut = std::ptr::null_mut::<u8>();
    unsafe {
        assert_eq!(sys::pasa_packet_next_hop(node, null, 0), document::packet_next_hop(node, &[]));
        assert_eq!(sys::pasa_next_hops(node, null.cast(), 0, null_mut.cast(), 0, null_mut, 0, null_mut, 0), 0);
        assert_eq!(sys::pasa_header_write(1, null_mut, 0), document::header_write(1, &mut []));
        assert_eq!(sys::pasa_header_read(null, 0), document::header_read(&[]));
        assert_eq!(sys::pasa_ipv6_write(null, 0, 1, null_mut, 0), document::ipv6_write(&[], 1, &mut []));
        assert_eq!(sys::pasa_ipv6_read(null, 0, null, 0), document::ipv6_read(&[], &[]));
        assert_eq!(sys::pasa_nsa_write(1, 1, 1, null_mut, 0), document::nsa::write(1, 1, 1, &mut []));
        assert_eq!(sys::pasa_nsa_read(null, 0), document::nsa::read(&[]));
        assert_eq!(sys::pasa_path(1, 1, null_mut.cast(), 0), document::path(1, 1, &mut []));
        assert_eq!(sys::pasa_plan_read(null, 0, null_mut.cast(), 0), document::plan::read(&[], &mut []));
        assert_eq!(sys::pasa_journal_write(null_mut, 0, null.cast(), 0), document::journal::write(&mut [], &[]));
        assert_eq!(sys::pasa_journal_recover(null, 0, null_mut.cast(), 0), document::journal::recover(&[], &mut []));
        assert_eq!(sys::pasa_journal_record(null.cast(), 0, 1), document::journal::record(&[], 1));
        assert_eq!(sys::pasa_crc(null, 0), document::journal::crc(&[]));
    }
}
