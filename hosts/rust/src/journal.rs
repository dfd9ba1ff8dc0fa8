//! The journal of a hall, which outlives a power cut.
use crate::address::yes;
use crate::refusal::done;
use crate::{sys, Address, Node, Refusal};

/// The bytes of a journal's slot.
pub const SLOT: usize = 512;

/// The most slots of a journal.
pub const SLOTS: usize = 128;

/// The most addresses of a block.
pub const BLOCK_MOST: usize = 63;

/// The most nodes that are recovered from a journal, the root counted, and the fewest words that recovery wants lent.
pub const NODES: usize = 4096;

/// Writes a block of 1 to [`BLOCK_MOST`] addresses, in the order given, to the first wholly erased slot of a journal, and answers that slot,
/// counted from 0. Every other byte stays as it was. Each address must be the next child of a node that the journal or the block holds before it.
/// Refusals: 12, 14, 17, 10; each leaves the journal as it was.
///
/// Where the storage is not the journal lent, the slot answered is what has to be copied: its bytes in order, and byte 511 last. A copy that was
/// cut off at any byte before the last leaves the hall as it was, and the slot torn:
///
/// ```
/// use pasa::{recover_journal, write_block, NODES, SLOT};
///
/// let mut storage = [0xFF; 2 * SLOT];
/// let mut copy = storage;
/// let slot = write_block(&mut copy, &[0b10, 0b11])?;
/// let block = &copy[slot * SLOT..][..SLOT];
///
/// let mut words = [0; NODES];
/// storage[slot * SLOT..][..511].copy_from_slice(&block[..511]);
/// assert_eq!(recover_journal(&storage, &mut words)?, 1);
/// storage[slot * SLOT + 511] = block[511];
/// assert_eq!(recover_journal(&storage, &mut words)?, 3);
/// # Ok::<(), pasa::Refusal>(())
/// ```
pub fn write_block(journal: &mut [u8], addresses: &[u64]) -> Result<usize, Refusal> {
    let answer = unsafe { sys::pasa_journal_write(journal.as_mut_ptr(), journal.len(), addresses.as_ptr(), addresses.len()) };
    written(answer, journal.len() / SLOT)
}

/// Recovers a hall from its journal: lists the root and the addresses of all blocks, in their order, at the front of the words, with zeros behind
/// them to the end of the words, and answers the number of nodes. A torn slot, which is not erased but ends in 0xFF, is passed over. Refusals: 12,
/// 10 (fewer than [`NODES`] words), then 14 or 17 for the first fault in the order of the slots.
///
/// With 12 and 10 the words stay as they were; with 14 and 17 all of them become zeros.
///
/// ```
/// use pasa::{recover_journal, recovered_record, write_block, Address, NODES, SLOT};
///
/// let mut journal = [0xFF; 4 * SLOT];
/// assert_eq!(write_block(&mut journal, &[0b10, 0b11])?, 0);
/// assert_eq!(write_block(&mut journal, &[0b101])?, 1);
///
/// // after a power cut
/// let mut words = [0; NODES];
/// let nodes = recover_journal(&journal, &mut words)?;
/// assert_eq!(words[..nodes], [0b1, 0b10, 0b11, 0b101]);
/// let mut root = recovered_record(&words, Address::ROOT).unwrap();
/// assert_eq!(root.router_child()?, Address::new(0b110)?);
/// # Ok::<(), pasa::Refusal>(())
/// ```
pub fn recover_journal(journal: &[u8], words: &mut [u64]) -> Result<usize, Refusal> {
    let answer = unsafe { sys::pasa_journal_recover(journal.as_ptr(), journal.len(), words.as_mut_ptr(), words.len()) };
    recovered(answer, words.len())
}

/// The record of a node among recovered words, with the children of it that are among them counted; none where the address is not among them.
/// As [`Node::restore`] it is called once for a node's life since the words were recovered.
///
/// A journal holds no limits, so the record has none: whoever had set some sets them again, by [`Node::set_router_limit`] and
/// [`Node::set_host_limit`].
///
/// It is answered for all words. Where no recovery left them, the counts may be such that the record is bad, which every call refuses with 1.
pub fn recovered_record(words: &[u64], address: Address) -> Option<Node> {
    let answer = unsafe { sys::pasa_journal_record(words.as_ptr(), words.len(), address.number()) };
    found(answer, address)
}

/// The CRC-16 of a block's bytes: polynomial 0x1021, start 0xFFFF, high bit first, nothing reversed or added at the end.
///
/// ```
/// assert_eq!(pasa::crc(b"123456789"), 0x29B1);
/// ```
pub fn crc(octets: &[u8]) -> u16 {
    unsafe { sys::pasa_crc(octets.as_ptr(), octets.len()) }
}

/// The slot that an answer names. One that a journal of so many slots doesn't have stops the program: it is no answer of this archive's.
fn written(answer: sys::Block, slots: usize) -> Result<usize, Refusal> {
    done(answer.refusal, || {
        assert!(answer.slot < slots, "a block in {slots} slots is in one of them, not in slot {}", answer.slot);
        answer.slot
    })
}

/// The number of nodes in an answer. No nodes, nodes without a word, or more than there may be stop the program: they are no answer of this
/// archive's.
fn recovered(answer: sys::Recovered, words: usize) -> Result<usize, Refusal> {
    done(answer.refusal, || {
        let most = words.min(NODES);
        assert!((1..=most).contains(&answer.nodes), "a hall in {words} words has 1 to {most} nodes, not {}", answer.nodes);
        answer.nodes
    })
}

/// The record in an answer. Another node's stops the program: it is no answer of this archive's.
fn found(answer: sys::Record, asked: Address) -> Option<Node> {
    yes(answer.found).then(|| {
        let node = Node::answered(answer.node);
        assert_eq!(node.address(), asked, "a record is that of the node asked for");
        node
    })
}

#[cfg(test)]
mod tests {
    use super::*;

    fn block(slot: usize, refusal: u8) -> Result<usize, Refusal> {
        written(sys::Block { slot, refusal }, 4)
    }

    fn hall(nodes: usize, refusal: u8) -> Result<usize, Refusal> {
        recovered(sys::Recovered { nodes, refusal }, 5000)
    }

    fn record(address: u64, found_as: u8) -> Option<Node> {
        found(
            sys::Record { node: sys::Node { address, routers: 2, hosts: 1, router_limit: 64, host_limit: 64 }, found: found_as },
            Address::ROOT,
        )
    }

    #[test]
    fn a_block_is_written_and_a_hall_recovered_by_refusal_0_alone() {
        assert_eq!((block(3, 0), hall(4096, 0)), (Ok(3), Ok(4096)));
        for number in 1..=u8::MAX {
            assert_eq!(block(3, number).unwrap_err().number(), number);
            assert_eq!(hall(4096, number).unwrap_err().number(), number);
        }
    }

    #[test]
    fn a_record_is_found_by_1_alone() {
        assert_eq!(record(1, 1), Some(Node::restore(Address::ROOT, 2, 1)));
        assert_eq!(record(0, 0), None);
        for number in 2..=u8::MAX {
            assert!(std::panic::catch_unwind(|| record(1, number)).is_err(), "found {number}");
        }
    }

    #[test]
    fn numbers_that_no_journal_has_stop() {
        for slot in [4, 5, usize::MAX] {
            assert!(std::panic::catch_unwind(|| block(slot, 0)).is_err(), "slot {slot}");
        }
        for nodes in [0, 4097, usize::MAX] {
            assert!(std::panic::catch_unwind(|| hall(nodes, 0)).is_err(), "{nodes} nodes");
        }
        for address in [0, 0b10] {
            assert!(std::panic::catch_unwind(|| record(address, 1)).is_err(), "address {address}");
        }
    }
}
