//! What is wrong with a slot, or with a block that is to be written. Whether something is wrong is for the archive to say; here is said what.
use pasa::{Address, BLOCK_MOST, NODES, SLOT};

const ERASED: u8 = 0xFF;
const FIRST: u8 = 0x50;
const LAST: u8 = 0xA5;

/// Bytes 0 to 508 are those that the CRC is taken of.
const CHECKED: usize = 509;

/// What a slot is by itself.
pub enum Form {
    Erased,
    /// "A slot that isn't erased but ends in 0xFF is torn".
    Torn,
    /// A right block, and its addresses.
    Block(Vec<u64>),
    /// Why it is no right block.
    Wrong(String),
}

impl Form {
    pub fn of(slot: &[u8]) -> Form {
        if slot.iter().all(|byte| *byte == ERASED) {
            return Form::Erased;
        }
        if slot[SLOT - 1] == ERASED {
            return Form::Torn;
        }
        match wrong(slot) {
            Some(why) => Form::Wrong(why),
            None => Form::Block(addresses(slot)),
        }
    }
}

fn count(slot: &[u8]) -> usize {
    usize::from(slot[1])
}

fn addresses_end(slot: &[u8]) -> usize {
    2 + 8 * count(slot)
}

fn addresses(slot: &[u8]) -> Vec<u64> {
    let octets = &slot[2..addresses_end(slot)];
    octets.chunks(8).map(|octets| octets.iter().fold(0, |number, octet| number << 8 | u64::from(*octet))).collect()
}

/// "A block: 0x50; a count n of 1 to 63; n addresses ..; zeros up to byte 508; in bytes 509 and 510 .. a CRC-16 of bytes 0 to 508 ..; 0xA5 in byte
/// 511."
fn wrong(slot: &[u8]) -> Option<String> {
    let byte = |place: usize, right: &str| Some(format!("byte {place} is 0x{:02x}, not {right}", slot[place]));
    if slot[SLOT - 1] != LAST {
        return byte(SLOT - 1, "0xff or 0xa5");
    }
    if slot[0] != FIRST {
        return byte(0, "0x50");
    }
    if !(1..=BLOCK_MOST).contains(&count(slot)) {
        return Some(format!("byte 1 counts {} addresses, not 1 to {BLOCK_MOST}", count(slot)));
    }
    if let Some(place) = (addresses_end(slot)..CHECKED).find(|place| slot[*place] != 0) {
        return byte(place, "0, behind the addresses");
    }
    let (told, found) = (u16::from_be_bytes([slot[CHECKED], slot[CHECKED + 1]]), pasa::crc(&slot[..CHECKED]));
    (told != found).then(|| format!("bytes 509 and 510 are 0x{told:04x}, and the CRC of bytes 0 to 508 is 0x{found:04x}"))
}

/// Why an address is not the next child of a node that is known; nothing where it is.
fn no_next_child(number: u64, known: &[u64]) -> Option<String> {
    let Ok(address) = Address::new(number) else {
        return Some("zero is no address".to_string());
    };
    let Some(parent) = address.parent() else {
        return Some("the root is known from the start".to_string());
    };
    if known.contains(&number) {
        return Some("it is known already".to_string());
    }
    let Some(mut node) = pasa::recovered_record(known, parent) else {
        return Some(format!("its parent {parent} is not known"));
    };
    let (kind, next) = if address.is_host() { ("host", node.host_child()) } else { ("router", node.router_child()) };
    match next {
        Ok(next) if next == address => None,
        Ok(next) => Some(format!("the next {kind} of {parent} is {next}")),
        Err(refusal) => Some(format!("{parent} asked for a {kind}: {refusal}")),
    }
}

/// The first address of a block that is no next child, or a node too many, with these nodes known before it.
pub fn address(block: &[u64], known: &[u64]) -> Option<String> {
    let mut known = known.to_vec();
    for (place, number) in block.iter().enumerate() {
        let found = no_next_child(*number, &known).or_else(|| (known.len() >= NODES).then(|| format!("it would be node {}", NODES + 1)));
        if let Some(why) = found {
            return Some(format!("address {} of the block, {number:b}: {why}", place + 1));
        }
        known.push(*number);
    }
    None
}
