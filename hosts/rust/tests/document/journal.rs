//! A journal by the sentences of request Four: "Outlive a power cut."; and with the limits of request Six: "a recovered journal may now have 4,096
//! nodes, the root counted .. Recovery wants 4,096 words lent."
use super::{bits, fresh, is_host, parent};
use pasa::sys::{Block, Node, Record, Recovered};

/// "polynomial 0x1021, .. high bit first": what is left of an octet at the top of a register of 16 bits once eight zeros have followed it.
const fn rest(octet: usize) -> u16 {
    let mut register = (octet as u32) << 8;
    let mut bit = 0;
    while bit < 8 {
        register <<= 1;
        if register > 0xFFFF {
            register ^= 0x1_1021;
        }
        bit += 1;
    }
    register as u16
}

/// By whole octets, where the request has half ones.
const RESTS: [u16; 256] = {
    let mut rests = [0; 256];
    let mut octet = 0;
    while octet < 256 {
        rests[octet] = rest(octet);
        octet += 1;
    }
    rests
};

/// "start 0xFFFF, high bit first, nothing reversed or added at the end"
pub fn crc(octets: &[u8]) -> u16 {
    octets.iter().fold(0xFFFF, |crc: u16, octet| crc << 8 ^ RESTS[usize::from(crc >> 8) ^ usize::from(*octet)])
}

/// "A block: 0x50; a count n of 1 to 63; n addresses of 8 octets, high octet first, in the order given; zeros up to byte 508; in bytes 509 and 510,
/// high first, a CRC-16 of bytes 0 to 508 ..; 0xA5 in byte 511."
pub fn block(addresses: &[u64]) -> Vec<u8> {
    let mut block = vec![0x50, addresses.len() as u8];
    for address in addresses {
        block.extend(address.to_be_bytes());
    }
    block.resize(509, 0);
    block.extend(crc(&block).to_be_bytes());
    block.push(0xA5);
    block
}

/// The addresses of a slot that is "a right block": one that would have been written so.
fn right_block(slot: &[u8]) -> Option<Vec<u64>> {
    let count = usize::from(slot[1]);
    if !(1..=63).contains(&count) {
        return None;
    }
    let addresses: Vec<u64> = slot[2..2 + 8 * count].chunks(8).map(|octets| u64::from_be_bytes(octets.try_into().unwrap())).collect();
    (block(&addresses) == slot).then_some(addresses)
}

/// A node of a hall: its routers, by their places in the hall, and the number of its hosts.
#[derive(Default)]
struct Known {
    routers: Vec<usize>,
    hosts: usize,
}

/// Which rule a journal breaks first.
#[derive(Clone, Copy, Debug, PartialEq, Eq)]
pub enum Fault {
    /// "Any slot that isn't erased .. standing after an erased one is 17."
    Place,
    /// "A slot ending in anything else must be a right block .. otherwise 17."
    Form,
    /// "whose addresses each are the next child of a node already known .. otherwise 17"
    NoNextChild,
    /// "a 513th node, the root counted, is 14": a 4,097th since request Six
    TooMany,
}

impl Fault {
    pub fn refusal(self) -> u8 {
        match self {
            Fault::TooMany => 14,
            Fault::Place | Fault::Form | Fault::NoNextChild => 17,
        }
    }
}

/// The nodes known: each with its children, the root at place 0, and the addresses in the order given. A host has a place that nobody asks for.
struct Hall {
    nodes: Vec<Known>,
    addresses: Vec<u64>,
}

impl Hall {
    /// "starting from a bare root"
    fn bare() -> Hall {
        Hall { nodes: vec![Known::default()], addresses: vec![1] }
    }

    /// The place of the node whose next child this is, from the root down along the address's steps; and whether it is a host.
    fn next_child_of(&self, address: u64) -> Option<(usize, bool)> {
        let below_first = 63u32.checked_sub(address.leading_zeros())?;
        let (mut at, mut ones) = (0, 0);
        for place in (0..below_first).rev() {
            let node = &self.nodes[at];
            match (address >> place & 1, place) {
                (1, 0) => return (node.hosts == ones).then_some((at, true)),
                (1, _) => ones += 1,
                (_, 0) => return (node.routers.len() == ones).then_some((at, false)),
                (_, _) => (at, ones) = (*node.routers.get(ones)?, 0),
            }
        }
        None
    }

    /// "each are the next child of a node already known"; "a 513th node, the root counted, is 14, but 17 if it is no next child": a 4,097th since
    /// request Six
    fn take(&mut self, address: u64) -> Result<(), Fault> {
        let (of, host) = self.next_child_of(address).ok_or(Fault::NoNextChild)?;
        if self.addresses.len() == 4096 {
            return Err(Fault::TooMany);
        }
        let place = self.nodes.len();
        match host {
            true => self.nodes[of].hosts += 1,
            false => self.nodes[of].routers.push(place),
        }
        self.nodes.push(Known::default());
        self.addresses.push(address);
        Ok(())
    }
}

/// "erased to 0xFF"
fn is_erased(slot: &[u8]) -> bool {
    slot.iter().all(|byte| *byte == 0xFF)
}

/// "then takes slots in order, the first fault deciding, in a slot its place and form before its addresses"
fn replay<'a>(slots: impl Iterator<Item = &'a [u8]>) -> Result<Hall, Fault> {
    let mut hall = Hall::bare();
    let mut behind_erased = false;
    for slot in slots {
        if is_erased(slot) {
            behind_erased = true;
            continue;
        }
        if behind_erased {
            return Err(Fault::Place);
        }
        // "A slot that isn't erased but ends in 0xFF is torn and skipped."
        if slot[511] == 0xFF {
            continue;
        }
        for address in right_block(slot).ok_or(Fault::Form)? {
            hall.take(address)?;
        }
    }
    Ok(hall)
}

/// The first fault of a journal that has the length of one.
pub fn fault(journal: &[u8]) -> Option<Fault> {
    replay(journal.chunks(512)).err()
}

/// "The journal is 1 to 128 slots of 512 bytes"
fn is_length(bytes: usize) -> bool {
    (1..=128).any(|slots| bytes == slots * 512)
}

/// "Recovery first checks the length (12), then that at least 512 words are lent (10) .. Success returns the number of nodes and leaves root and
/// addresses in order, then zeros to the list's end. Recovery's 14 and 17 leave the list all zeros". The words are 4,096 since request Six.
pub fn recover(journal: &[u8], words: &mut [u64]) -> Recovered {
    let refused = |refusal| Recovered { nodes: 0, refusal };
    if !is_length(journal.len()) {
        return refused(12);
    }
    if words.len() < 4096 {
        return refused(10);
    }
    words.fill(0);
    match replay(journal.chunks(512)) {
        Err(fault) => refused(fault.refusal()),
        Ok(hall) => {
            words[..hall.addresses.len()].copy_from_slice(&hall.addresses);
            Recovered { nodes: hall.addresses.len(), refusal: 0 }
        }
    }
}

/// "The writer refuses in this order: 12 if the journal's length is wrong or n is outside 1 to 63; 14 or 17 exactly if recovery gives it for the
/// journal, or else for its written slots and this block after them, even a 129th; 10 if no slot is erased." "A block goes to the first wholly
/// erased slot."
pub fn write(journal: &mut [u8], addresses: &[u64]) -> Block {
    let refused = |refusal| Block { slot: 0, refusal };
    if !is_length(journal.len()) || !(1..=63).contains(&addresses.len()) {
        return refused(12);
    }
    if let Err(fault) = replay(journal.chunks(512)) {
        return refused(fault.refusal());
    }
    let block = block(addresses);
    let written = journal.chunks(512).filter(|slot| !is_erased(slot)).chain([block.as_slice()]);
    if let Err(fault) = replay(written) {
        return refused(fault.refusal());
    }
    let Some(slot) = journal.chunks(512).position(is_erased) else {
        return refused(10);
    };
    journal[512 * slot..512 * slot + 512].copy_from_slice(&block);
    Block { slot, refusal: 0 }
}

/// Our own addition: found exactly if the address is not zero and stands among the words; the counts are the words whose parent it is, by kind, at
/// most 255 each. "The journal holds no limits, so recovered nodes have 64 and 64." Where none is found all is zero, the limits too.
pub fn record(words: &[u64], address: u64) -> Record {
    if address == 0 || !words.contains(&address) {
        return Record { node: Node { address: 0, routers: 0, hosts: 0, router_limit: 0, host_limit: 0 }, found: 0 };
    }
    let children: Vec<bool> =
        words.iter().map(|word| bits(*word)).filter(|bits| parent(bits) == address).map(|bits| is_host(&bits)).collect();
    let count = |kind| children.iter().filter(|host| **host == kind).count().min(255) as u8;
    Record { node: Node { routers: count(false), hosts: count(true), ..fresh(address) }, found: 1 }
}
