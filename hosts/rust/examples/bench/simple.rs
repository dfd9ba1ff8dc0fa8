//! The functions as one would write them in Rust by hand, on 64-bit numbers: straight from the rules, with the language's own means and
//! without tricks.
use pasa::sys::{
    Block, Child, Hop, Limited, Listed, Node, Nsa, Plan, Read, Record, Recovered, Written, DELIVERED, STOPPED, TO_CHILD, TO_PARENT,
};
use std::collections::HashSet;

/// "A plan and a recovered journal may now have 4,096 nodes, the root counted, and a plan 32,768 bytes."
const MOST_NODES: usize = 4096;
const MOST_BYTES: usize = 32_768;

fn bit_length(address: u64) -> u32 {
    64 - address.leading_zeros()
}

fn is_host(address: u64) -> bool {
    address > 1 && address % 2 == 1
}

fn fresh(address: u64) -> Node {
    Node { address, routers: 0, hosts: 0, router_limit: 64, host_limit: 64 }
}

fn is_good(node: Node) -> bool {
    if node.router_limit > 64 || node.routers > node.router_limit || node.host_limit > 64 || node.hosts > node.host_limit {
        return false;
    }
    if node.address == 0 {
        return false;
    }
    if is_host(node.address) {
        return node.routers == 0 && node.hosts == 0;
    }
    let room = 64 - bit_length(node.address);
    u32::from(node.routers) <= room && u32::from(node.hosts) <= room
}

fn parent(address: u64) -> u64 {
    if address <= 1 {
        return 0;
    }
    // without the last bit, and without the ones before it
    let rest = address / 2;
    (rest >> rest.trailing_ones()).max(1)
}

#[inline]
pub fn child(node: Node, host: bool) -> Child {
    let refused = |refusal| Child { node, child: 0, refusal };
    if !is_good(node) {
        return refused(1);
    }
    if is_host(node.address) {
        return refused(2);
    }
    let (count, limit) = if host { (node.hosts, node.host_limit) } else { (node.routers, node.router_limit) };
    if count == limit {
        return refused(15);
    }
    let count = u32::from(count);
    if bit_length(node.address) + count + 1 > 64 {
        return refused(3);
    }
    let ones = (1u64 << count) - 1;
    let child = ((node.address << count) | ones) << 1 | u64::from(host);
    let node = if host { Node { hosts: node.hosts + 1, ..node } } else { Node { routers: node.routers + 1, ..node } };
    Child { node, child, refusal: 0 }
}

#[inline]
pub fn limited(node: Node, host: bool, limit: u64) -> Limited {
    let count = if host { node.hosts } else { node.routers };
    if !is_good(node) || limit > 64 || limit < u64::from(count) {
        return Limited { node, refusal: 1 };
    }
    let limit = limit as u8;
    let node = if host { Node { host_limit: limit, ..node } } else { Node { router_limit: limit, ..node } };
    Limited { node, refusal: 0 }
}

#[inline]
pub fn next_hop(node: Node, destination: u64) -> Hop {
    let refused = |refusal| Hop { node: 0, refusal, action: STOPPED };
    if !is_good(node) {
        return refused(1);
    }
    if destination == 0 {
        return refused(9);
    }
    if destination == node.address {
        return Hop { node: node.address, refusal: 0, action: DELIVERED };
    }
    let up = || Hop { node: parent(node.address), refusal: 0, action: TO_PARENT };
    if is_host(node.address) {
        return up();
    }
    let length = bit_length(node.address);
    let whole = bit_length(destination);
    if whole <= length || destination >> (whole - length) != node.address {
        return up();
    }
    // the bits behind the node's, one at a time, to the first 0 or to the last
    let mut end = length;
    loop {
        end += 1;
        if end == whole || (destination >> (whole - end)) % 2 == 0 {
            break;
        }
    }
    let child = destination >> (whole - end);
    let count = if child % 2 == 0 { node.routers } else { node.hosts };
    if end - length - 1 < u32::from(count) {
        Hop { node: child, refusal: 0, action: TO_CHILD }
    } else {
        refused(7)
    }
}

pub fn next_hops(node: Node, destinations: &[u64], nodes: &mut [u64], actions: &mut [u8], refusals: &mut [u8]) -> usize {
    let mut count = 0;
    for (((destination, node_out), action), refusal) in destinations.iter().zip(nodes).zip(actions).zip(refusals) {
        let hop = next_hop(node, *destination);
        *node_out = hop.node;
        *action = hop.action;
        *refusal = hop.refusal;
        count += 1;
    }
    count
}

#[inline]
pub fn header_write(address: u64, out: &mut [u8]) -> Written {
    if address == 0 {
        return Written { count: 0, refusal: 9 };
    }
    let size = bit_length(address).div_ceil(8) as usize;
    let count = 3 + size;
    if out.len() < count {
        return Written { count: 0, refusal: 10 };
    }
    out[0] = 0xF1;
    out[1] = 0x80 | (size - 1) as u8;
    out[2] = 15;
    out[3..count].copy_from_slice(&address.to_be_bytes()[8 - size..]);
    Written { count, refusal: 0 }
}

#[inline]
pub fn header_read(packet: &[u8]) -> Read {
    let refused = |refusal| Read { address: 0, place: 0, refusal };
    let right: [fn(u8) -> bool; 3] = [|octet| octet == 0xF1, |octet| octet >> 5 == 4, |octet| octet == 15];
    for (place, right) in right.iter().enumerate() {
        match packet.get(place) {
            None => return refused(4),
            Some(octet) if !right(*octet) => return refused(5),
            Some(_) => (),
        }
    }
    let size = usize::from(packet[1] % 32) + 1;
    if size > 8 {
        return refused(6);
    }
    let Some(octets) = packet.get(3..3 + size) else {
        return refused(4);
    };
    if octets[0] == 0 {
        return refused(if size == 1 { 9 } else { 6 });
    }
    if packet.len() == 3 + size {
        return refused(16);
    }
    let address = octets.iter().fold(0, |number, octet| number << 8 | u64::from(*octet));
    Read { address, place: 3 + size, refusal: 0 }
}

/// The octets of an address in its shortest form: how many of them are the number's own, and how many there are together.
fn address_size(address: u64) -> (usize, usize) {
    match address {
        0..=252 => (1, 1),
        253..=0xFFFF => (2, 3),
        0x1_0000..=0xFFFF_FFFF => (4, 5),
        _ => {
            let own = bit_length(address).div_ceil(8) as usize;
            (own, 2 + own)
        }
    }
}

/// Writes it to octets that are just so many.
fn put_address(address: u64, own: usize, out: &mut [u8]) {
    let (front, rest) = out.split_at_mut(out.len() - own);
    match front {
        [] => (),
        [mark] => *mark = if own == 2 { 253 } else { 254 },
        [mark, length, ..] => (*mark, *length) = (255, own as u8),
    }
    rest.copy_from_slice(&address.to_be_bytes()[8 - own..]);
}

fn length_size(length: u64) -> usize {
    match length {
        0..=252 => 1,
        253..=507 => 2,
        _ => 3,
    }
}

fn put_length(length: u64, out: &mut [u8]) {
    match out {
        [octet] => *octet = length as u8,
        [mark, octet] => (*mark, *octet) = (253, (length - 252) as u8),
        [mark, octets @ ..] => {
            *mark = 254;
            octets.copy_from_slice(&((length - 252) as u16).to_be_bytes());
        }
        [] => (),
    }
}

#[inline]
pub fn nsa_write(length: u64, source: u64, destination: u64, out: &mut [u8]) -> Written {
    let refused = |refusal| Written { count: 0, refusal };
    if length > 65_787 {
        return refused(14);
    }
    if source == 0 || destination == 0 {
        return refused(9);
    }
    let first = length_size(length);
    let (own, second) = address_size(source);
    let (own2, third) = address_size(destination);
    let count = first + second + third;
    let Some(out) = out.get_mut(..count) else {
        return refused(10);
    };
    put_length(length, &mut out[..first]);
    put_address(source, own, &mut out[first..first + second]);
    put_address(destination, own2, &mut out[first + second..]);
    Written { count, refusal: 0 }
}

/// The number in so many octets at the front of some, and the rest; or refusal 4.
fn take_number(octets: &[u8], count: usize) -> Result<(u64, &[u8]), u8> {
    let (own, rest) = octets.split_at_checked(count).ok_or(4)?;
    Ok((own.iter().fold(0, |number, octet| number << 8 | u64::from(*octet)), rest))
}

fn take_length(octets: &[u8]) -> Result<(u64, &[u8]), u8> {
    let (first, rest) = take_number(octets, 1)?;
    let (count, least) = match first {
        0..=252 => return Ok((first, rest)),
        253 => (1, 1),
        254 => (2, 256),
        _ => return Err(6),
    };
    let (above, rest) = take_number(rest, count)?;
    if above < least {
        return Err(6);
    }
    Ok((252 + above, rest))
}

fn take_address(octets: &[u8]) -> Result<(u64, &[u8]), u8> {
    let (first, rest) = take_number(octets, 1)?;
    let (count, least, rest) = match first {
        0 => return Err(9),
        1..=252 => return Ok((first, rest)),
        253 => (2, 253, rest),
        254 => (4, 0x1_0000, rest),
        _ => {
            let (count, rest) = take_number(rest, 1)?;
            if !(5..=8).contains(&count) {
                return Err(6);
            }
            (count as usize, 1 << (8 * (count - 1)), rest)
        }
    };
    let (address, rest) = take_number(rest, count)?;
    if address < least {
        return Err(6);
    }
    Ok((address, rest))
}

#[inline]
pub fn nsa_read(octets: &[u8]) -> Nsa {
    let read = || {
        let (length, rest) = take_length(octets)?;
        let (source, rest) = take_address(rest)?;
        let (destination, rest) = take_address(rest)?;
        Ok(Nsa { length, source, destination, place: octets.len() - rest.len(), refusal: 0 })
    };
    read().unwrap_or_else(|refusal| Nsa { length: 0, source: 0, destination: 0, place: 0, refusal })
}

fn depth(address: u64) -> u32 {
    bit_length(address) - address.count_ones() + u32::from(is_host(address))
}

#[inline]
pub fn path(first: u64, second: u64, words: &mut [u64]) -> Listed {
    if first == 0 || second == 0 {
        return Listed { hops: 0, refusal: 9 };
    }
    // an ancestor's number is the smaller one, so the larger number goes up
    let (mut a, mut d) = (first, second);
    while a != d {
        if a < d {
            d = parent(d);
        } else {
            a = parent(a);
        }
    }
    let top = a;
    let up = (depth(first) - depth(top)) as usize;
    let hops = up + (depth(second) - depth(top)) as usize;
    if words.len() <= hops {
        return Listed { hops: 0, refusal: 10 };
    }
    let mut a = first;
    for word in &mut words[..=up] {
        *word = a;
        a = parent(a);
    }
    let mut d = second;
    for word in words[up + 1..=hops].iter_mut().rev() {
        *word = d;
        d = parent(d);
    }
    Listed { hops: hops as u32, refusal: 0 }
}

/// The number of nodes of a plan's text, or the place where it stops being one.
fn plan_nodes(text: &[u8]) -> Result<usize, usize> {
    let mut open = 0;
    let mut nodes = 0;
    let mut place = 0;
    while place < text.len() {
        match text[place] {
            b'R' if open < 64 && (open > 0 || place == 0) => {
                place += 1;
                if text.get(place) != Some(&b'(') {
                    return Err(place);
                }
                nodes += 1;
                open += 1;
            }
            b'H' if open > 0 => nodes += 1,
            b')' if open > 0 => open -= 1,
            _ => return Err(place),
        }
        place += 1;
    }
    if open > 0 || nodes == 0 {
        return Err(text.len());
    }
    Ok(nodes)
}

/// The addresses of a plan that has so many nodes, at the front of the words; none where one is too long.
fn plan_addresses(text: &[u8], words: &mut [u64]) -> Option<()> {
    let mut open = [fresh(0); 64];
    let mut depth = 0;
    let mut nodes = 0;
    for byte in text {
        let is_host = match byte {
            b'R' => false,
            b'H' => true,
            b')' => {
                depth -= 1;
                continue;
            }
            _ => continue,
        };
        let mut address = 1;
        if depth > 0 {
            let answer = child(open[depth - 1], is_host);
            if answer.refusal != 0 {
                return None;
            }
            open[depth - 1] = answer.node;
            address = answer.child;
        }
        if !is_host {
            open[depth] = fresh(address);
            depth += 1;
        }
        words[nodes] = address;
        nodes += 1;
    }
    Some(())
}

#[inline]
pub fn plan_read(text: &[u8], words: &mut [u64]) -> Plan {
    let refused = |refusal, place| Plan { nodes: 0, place, refusal };
    if text.len() > MOST_BYTES {
        return refused(14, 0);
    }
    let nodes = match plan_nodes(text) {
        Ok(nodes) => nodes,
        Err(place) => return refused(13, place),
    };
    if nodes > MOST_NODES {
        return refused(14, 0);
    }
    // not into the words lent, which stay as they are if an address is too long
    let mut addresses = [0; MOST_NODES];
    if plan_addresses(text, &mut addresses).is_none() {
        return refused(3, 0);
    }
    let Some(front) = words.get_mut(..nodes) else {
        return refused(10, 0);
    };
    front.copy_from_slice(&addresses[..nodes]);
    Plan { nodes, place: 0, refusal: 0 }
}

/// "the check uses a table of sixteen entries, one for each half octet"
const CRC_TABLE: [u16; 16] =
    [0x0000, 0x1021, 0x2042, 0x3063, 0x4084, 0x50A5, 0x60C6, 0x70E7, 0x8108, 0x9129, 0xA14A, 0xB16B, 0xC18C, 0xD1AD, 0xE1CE, 0xF1EF];

#[inline]
pub fn crc(octets: &[u8]) -> u16 {
    let half = |crc: u16, half: u8| crc << 4 ^ CRC_TABLE[usize::from(crc >> 12 ^ u16::from(half))];
    octets.iter().fold(0xFFFF, |crc, octet| half(half(crc, octet >> 4), octet & 15))
}

fn is_erased(slot: &[u8]) -> bool {
    slot.iter().all(|byte| *byte == 0xFF)
}

fn is_block(slot: &[u8]) -> bool {
    let count = usize::from(slot[1]);
    slot[511] == 0xA5
        && slot[0] == 0x50
        && (1..=63).contains(&count)
        && slot[2 + 8 * count..509].iter().all(|byte| *byte == 0)
        && slot[509..511] == crc(&slot[..509]).to_be_bytes()
}

/// The child before this one, of the same node and kind, or that node.
fn before(address: u64) -> u64 {
    let half = address / 2;
    if address % 2 == 1 || half == 1 || half % 2 == 0 {
        half
    } else {
        half - 1
    }
}

/// One address more behind the nodes known, or the refusal.
fn put(address: u64, is_next: bool, nodes: usize, words: &mut [u64]) -> Result<usize, u8> {
    if !is_next {
        return Err(17);
    }
    if nodes == MOST_NODES {
        return Err(14);
    }
    words[nodes] = address;
    Ok(nodes + 1)
}

/// The same where it is looked for among the nodes known.
fn take(address: u64, nodes: usize, words: &mut [u64]) -> Result<usize, u8> {
    let known = &words[..nodes];
    let is_next = known.contains(&before(address)) && !known.contains(&address);
    put(address, is_next, nodes, words)
}

type Replayed = Result<(usize, usize), u8>;

/// The nodes known and the slots written, or the first fault.
fn replay(journal: &[u8], words: &mut [u64], mut take: impl FnMut(u64, usize, &mut [u64]) -> Result<usize, u8>) -> Replayed {
    words[0] = 1;
    let mut nodes = 1;
    let mut written = 0;
    for (place, slot) in journal.chunks_exact(512).enumerate() {
        if is_erased(slot) {
            continue;
        }
        if written < place {
            return Err(17);
        }
        written += 1;
        if slot[511] == 0xFF {
            continue;
        }
        if !is_block(slot) {
            return Err(17);
        }
        for octets in slot[2..2 + 8 * usize::from(slot[1])].chunks_exact(8) {
            nodes = take(u64::from_be_bytes(octets.try_into().unwrap()), nodes, words)?;
        }
    }
    Ok((nodes, written))
}

fn is_journal(journal: &[u8]) -> bool {
    journal.len() % 512 == 0 && (1..=128).contains(&(journal.len() / 512))
}

fn recover(journal: &[u8], words: &mut [u64], replay: impl FnOnce(&[u8], &mut [u64]) -> Replayed) -> Recovered {
    let refused = |refusal| Recovered { nodes: 0, refusal };
    if !is_journal(journal) {
        return refused(12);
    }
    if words.len() < MOST_NODES {
        return refused(10);
    }
    match replay(journal, words) {
        Err(fault) => {
            words.fill(0);
            refused(fault)
        }
        Ok((nodes, _)) => {
            words[nodes..].fill(0);
            Recovered { nodes, refusal: 0 }
        }
    }
}

#[inline]
pub fn journal_recover(journal: &[u8], words: &mut [u64]) -> Recovered {
    recover(journal, words, |journal, words| replay(journal, words, take))
}

/// The same with a set of the nodes known beside the words, in memory of its own: what an index saves.
pub fn journal_recover_indexed(journal: &[u8], words: &mut [u64]) -> Recovered {
    let mut known = HashSet::with_capacity(MOST_NODES);
    known.insert(1);
    recover(journal, words, |journal, words| {
        replay(journal, words, |address, nodes, words| {
            let is_next = known.contains(&before(address)) && known.insert(address);
            put(address, is_next, nodes, words)
        })
    })
}

#[inline]
pub fn journal_write(journal: &mut [u8], addresses: &[u64]) -> Block {
    let refused = |refusal| Block { slot: 0, refusal };
    if !is_journal(journal) || !(1..=63).contains(&addresses.len()) {
        return refused(12);
    }
    let mut words = [0; MOST_NODES];
    let followed = replay(journal, &mut words, take).and_then(|(mut nodes, written)| {
        for address in addresses {
            nodes = take(*address, nodes, &mut words)?;
        }
        Ok(written)
    });
    let slot = match followed {
        Err(fault) => return refused(fault),
        Ok(written) => written,
    };
    let Some(out) = journal.chunks_exact_mut(512).nth(slot) else {
        return refused(10);
    };
    out.fill(0);
    (out[0], out[1], out[511]) = (0x50, addresses.len() as u8, 0xA5);
    for (octets, address) in out[2..509].chunks_exact_mut(8).zip(addresses) {
        octets.copy_from_slice(&address.to_be_bytes());
    }
    let crc = crc(&out[..509]).to_be_bytes();
    out[509..511].copy_from_slice(&crc);
    Block { slot, refusal: 0 }
}

#[inline]
pub fn journal_record(words: &[u64], address: u64) -> Record {
    let nobody = Node { address: 0, routers: 0, hosts: 0, router_limit: 0, host_limit: 0 };
    if address == 0 {
        return Record { node: nobody, found: 0 };
    }
    let mut node = fresh(address);
    let mut found = false;
    for word in words {
        found |= *word == address;
        if parent(*word) == address {
            let count = if is_host(*word) { &mut node.hosts } else { &mut node.routers };
            *count = count.saturating_add(1);
        }
    }
    if found {
        Record { node, found: 1 }
    } else {
        Record { node: nobody, found: 0 }
    }
}
