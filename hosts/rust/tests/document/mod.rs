//! The specification once more, on bit strings: written from its sentences alone, to be plain and not to be fast. It shares nothing with the
//! proved code. The answers have the shapes of the exports, so that both can be compared whole.
pub mod journal;
pub mod nsa;
pub mod plan;

use pasa::sys::{Address, Child, Hop, Limited, Listed, Node, Read, Written};

/// "An address is a string of 1 to 64 bits whose first bit is 1." Most significant bit first.
pub type Bits = Vec<bool>;

/// The binary digits of a number, none for zero.
pub fn bits(number: u64) -> Bits {
    (0..64).rev().map(|place| number >> place & 1 == 1).skip_while(|bit| !bit).collect()
}

/// "It is held right-justified in a 64-bit number".
pub fn number(bits: &[bool]) -> u64 {
    bits.iter().fold(0, |number, bit| number * 2 + u64::from(*bit))
}

#[derive(Clone, Copy, Debug, PartialEq, Eq)]
pub enum Kind {
    Router,
    Host,
}

/// A step: a kind and the child's index.
pub type Step = (Kind, usize);

/// "After the first 1, the string is cut into steps: a run of k ones and then a 0 is 'router child k'. If ones remain at the end, m of them
/// (m at least 1) are 'host child m-1'."
pub fn steps(bits: &[bool]) -> Vec<Step> {
    let mut steps = Vec::new();
    let mut ones = 0;
    for bit in &bits[1..] {
        if *bit {
            ones += 1;
        } else {
            steps.push((Kind::Router, ones));
            ones = 0;
        }
    }
    if ones > 0 {
        steps.push((Kind::Host, ones - 1));
    }
    steps
}

/// "as many ones as the old count of that kind, then 0 for a router or 1 for a host"
pub fn step_bits((kind, index): Step) -> impl Iterator<Item = bool> {
    std::iter::repeat(true).take(index).chain([kind == Kind::Host])
}

pub fn spelled(steps: &[Step]) -> Bits {
    let mut bits = Vec::with_capacity(64);
    bits.push(true);
    for step in steps {
        bits.extend(step_bits(*step));
    }
    bits
}

/// "A host ends in 1 and is longer than one bit."
pub fn is_host(bits: &[bool]) -> bool {
    bits.len() > 1 && bits[bits.len() - 1]
}

/// "Depth is the number of steps". Zero, which is no address, has none.
pub fn depth(bits: &[bool]) -> usize {
    if bits.is_empty() {
        return 0;
    }
    steps(bits).len()
}

/// "The parent of an address drops its last step." The root has none, and neither has zero, which is no address: 0.
pub fn parent(bits: &[bool]) -> u64 {
    if bits.is_empty() {
        return 0;
    }
    let steps = steps(bits);
    match steps.split_last() {
        None => 0,
        Some((_, above)) => number(&spelled(above)),
    }
}

/// "For the root or a router of n bits each count is 0 to 64-n. For a host both are 0. Any other record is bad." "A node record gains two
/// limits, routers and hosts, 0 to 64 each, 64 meaning no cap; a limit above 64, or a count above its limit, makes the record bad (1)."
fn is_good(node: Node) -> bool {
    if node.router_limit > 64 || node.host_limit > 64 || node.routers > node.router_limit || node.hosts > node.host_limit {
        return false;
    }
    let own = bits(node.address);
    if own.is_empty() {
        return false;
    }
    let most = if is_host(&own) { 0 } else { 64 - own.len() };
    usize::from(node.routers) <= most && usize::from(node.hosts) <= most
}

/// "A fresh record gets 64 and 64".
pub fn fresh(address: u64) -> Node {
    Node { address, routers: 0, hosts: 0, router_limit: 64, host_limit: 64 }
}

fn count(node: Node, kind: Kind) -> u8 {
    match kind {
        Kind::Router => node.routers,
        Kind::Host => node.hosts,
    }
}

/// Whether a node has given all children of a kind that it may: "64 meaning no cap".
fn is_at_limit(node: Node, kind: Kind) -> bool {
    let limit = match kind {
        Kind::Router => node.router_limit,
        Kind::Host => node.host_limit,
    };
    limit != 64 && count(node, kind) == limit
}

/// "For a child 1, 2, 3."; "Asked for a child at its limit, a node answers 15, after 2 and before 3."
pub fn child(node: Node, kind: Kind) -> Child {
    let refused = |refusal| Child { node, child: 0, refusal };
    if !is_good(node) {
        return refused(1);
    }
    let mut child = bits(node.address);
    if is_host(&child) {
        return refused(2);
    }
    if is_at_limit(node, kind) {
        return refused(15);
    }
    child.extend(step_bits((kind, usize::from(count(node, kind)))));
    if child.len() > 64 {
        return refused(3);
    }
    let mut raised = node;
    match kind {
        Kind::Router => raised.routers += 1,
        Kind::Host => raised.hosts += 1,
    }
    Child { node: raised, child: number(&child), refusal: 0 }
}

/// "Setting a limit outside 0 to 64 or below its count, or on a bad record, is refused with 1; otherwise the record comes back with that limit as
/// asked and nothing else changed."
pub fn limited(node: Node, kind: Kind, limit: u64) -> Limited {
    if !is_good(node) || !(0..=64).contains(&limit) || limit < u64::from(count(node, kind)) {
        return Limited { node, refusal: 1 };
    }
    let mut set = node;
    match kind {
        Kind::Router => set.router_limit = limit as u8,
        Kind::Host => set.host_limit = limit as u8,
    }
    Limited { node: set, refusal: 0 }
}

/// "For a next hop from an address 1, 9, 7".
pub fn next_hop(node: Node, destination: u64) -> Hop {
    let stopped = |refusal| Hop { node: 0, refusal, action: 0 };
    if !is_good(node) {
        return stopped(1);
    }
    if destination == 0 {
        return stopped(9);
    }
    let (c, d) = (bits(node.address), bits(destination));
    // "1. D equals C: deliver."
    if d == c {
        return Hop { node: node.address, refusal: 0, action: 1 };
    }
    // "2. C is a host: pass to the parent. 3. C is the root or a router and is not a prefix of D: pass to the parent."
    if is_host(&c) || !d.starts_with(&c) {
        return Hop { node: parent(&c), refusal: 0, action: 2 };
    }
    // "4. C is a proper prefix of D: look at D's bits after C one at a time and stop at the first 0 or at D's last bit. C with these bits is
    // the child (000, 5.1 step 6). If its index is below the node's count of that kind, pass to it. Otherwise refusal 7."
    let mut child = c;
    for bit in &d[child.len()..] {
        child.push(*bit);
        if !bit {
            break;
        }
    }
    let (kind, index) = *steps(&child).last().unwrap();
    if index < usize::from(count(node, kind)) {
        Hop { node: number(&child), refusal: 0, action: 3 }
    } else {
        stopped(7)
    }
}

/// "from a packet 1, then the reading order, then 7"; 16 comes "before any next-hop answer".
pub fn packet_next_hop(node: Node, packet: &[u8]) -> Hop {
    let refused = |refusal| Hop { node: 0, refusal, action: 0 };
    if !is_good(node) {
        return refused(1);
    }
    let read = header_read(packet);
    if read.refusal != 0 {
        return refused(read.refusal);
    }
    next_hop(node, read.address)
}

/// "octet 0xF1 ..; octet 100sssss, where sssss is the number of address octets less one ..; octet 15 as the type ..; the address, most
/// significant octet first". "Now the address takes the fewest octets, 1 to 8."
pub fn header(address: u64) -> Vec<u8> {
    let mut bits = bits(address);
    while bits.len() % 8 != 0 {
        bits.insert(0, false);
    }
    let address: Vec<u8> = bits.chunks(8).map(|octet| number(octet) as u8).collect();
    [&[0xF1, 0b1000_0000 + (address.len() as u8 - 1), 15], &address[..]].concat()
}

fn written(refusals: [(bool, u8); 3], octets: impl FnOnce() -> Vec<u8>, out: &mut [u8]) -> Written {
    for (fault, refusal) in refusals {
        if fault {
            return Written { count: 0, refusal };
        }
    }
    let octets = octets();
    if out.len() < octets.len() {
        return Written { count: 0, refusal: 10 };
    }
    out[..octets.len()].copy_from_slice(&octets);
    Written { count: octets.len(), refusal: 0 }
}

/// "For writing a header 9, 10."
pub fn header_write(address: u64, out: &mut [u8]) -> Written {
    written([(address == 0, 9), (false, 0), (false, 0)], || header(address), out)
}

/// The bits of some octets.
fn octet_bits(octets: &[u8]) -> Bits {
    octets.iter().flat_map(|octet| format!("{octet:08b}").chars().map(|digit| digit == '1').collect::<Bits>()).collect()
}

/// "the first three octets are checked in order; one that is absent is 4, one that is wrong is 5 (of the second only its top three bits).
/// .. Then a missing address octet is 4." "Document 01's size rule becomes '1 to 8', refusal 6 means a size above 8 or a first octet of zero
/// where there are several, and 9 means a single zero octet." "A packet whose payload is empty is refused with 16, after every other header check".
pub fn header_read(packet: &[u8]) -> Read {
    let refused = |refusal| Read { address: 0, place: 0, refusal };
    for place in 0..3 {
        if packet.len() <= place {
            return refused(4);
        }
        let octet = octet_bits(&packet[place..=place]);
        let right = match place {
            0 => packet[0] == 0xF1,
            1 => octet[..3] == [true, false, false],
            _ => packet[2] == 15,
        };
        if !right {
            return refused(5);
        }
    }
    let size = number(&octet_bits(&packet[1..2])[3..]) as usize + 1;
    if !(1..=8).contains(&size) {
        return refused(6);
    }
    if packet.len() < 3 + size {
        return refused(4);
    }
    let (octets, payload) = packet[3..].split_at(size);
    match octets {
        [0] => refused(9),
        [0, ..] => refused(6),
        _ if payload.is_empty() => refused(16),
        octets => Read { address: number(&octet_bits(octets)), place: 3 + size, refusal: 0 },
    }
}

/// "prefix of 8 octets, then the address in 8 octets padded with leading zeros"
pub fn form(prefix: &[u8], address: u64) -> Vec<u8> {
    let digits = format!("{address:064b}");
    let mut octets = prefix.to_vec();
    octets.extend((0..8).map(|i| u8::from_str_radix(&digits[8 * i..8 * i + 8], 2).unwrap()));
    octets
}

/// "For IPv6 out 12, 9, 10."
pub fn ipv6_write(prefix: &[u8], address: u64, out: &mut [u8]) -> Written {
    written([(prefix.len() != 8, 12), (address == 0, 9), (false, 0)], || form(prefix, address), out)
}

/// "For IPv6 back 12, 8, 9." "the first 8 octets must equal the prefix; the other 8 are the address."
pub fn ipv6_read(prefix: &[u8], ipv6: &[u8]) -> Address {
    let refused = |refusal| Address { address: 0, refusal };
    if prefix.len() != 8 || ipv6.len() != 16 {
        return refused(12);
    }
    if &ipv6[..8] != prefix {
        return refused(8);
    }
    match number(&octet_bits(&ipv6[8..])) {
        0 => refused(9),
        address => Address { address, refusal: 0 },
    }
}

/// "the list from the first up to the deepest common ancestor-or-self and down to the second, both ends in it"
pub fn way(first: u64, second: u64) -> Vec<u64> {
    let (up, down) = (steps(&bits(first)), steps(&bits(second)));
    let common = up.iter().zip(&down).take_while(|(s, t)| s == t).count();
    let mut way: Vec<u64> = (common..=up.len()).rev().map(|k| number(&spelled(&up[..k]))).collect();
    way.extend((common + 1..=down.len()).map(|k| number(&spelled(&down[..k]))));
    way
}

/// "For a path 9, 10."
pub fn path(first: u64, second: u64, words: &mut [u64]) -> Listed {
    if first == 0 || second == 0 {
        return Listed { hops: 0, refusal: 9 };
    }
    let way = way(first, second);
    if words.len() < way.len() {
        return Listed { hops: 0, refusal: 10 };
    }
    words[..way.len()].copy_from_slice(&way);
    Listed { hops: way.len() as u32 - 1, refusal: 0 }
}
