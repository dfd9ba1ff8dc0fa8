//! The exports of libpasa.a as include/pasa.h declares them, over plain numbers: an address of zero and a record that no node can have may
//! go in, and come back as refusals. A slice is a pointer and a length; the pointer is valid for so many elements, and what is written to
//! overlaps nothing else that is handed in.
//!
//! Records are plain numbers here and can be copied. That a record is asked once, which [`Node`](crate::Node) sees to, is here the caller's
//! to see to.

/// A node's record. One without limits has 64 in both, as [`pasa_fresh`] makes it, and not 0.
#[repr(C)]
#[derive(Clone, Copy, Debug, PartialEq, Eq)]
pub struct Node {
    pub address: u64,
    pub routers: u8,
    pub hosts: u8,
    pub router_limit: u8,
    pub host_limit: u8,
}

/// A child's answer.
#[repr(C)]
#[derive(Clone, Copy, Debug, PartialEq, Eq)]
pub struct Child {
    pub node: Node,
    pub child: u64,
    pub refusal: u8,
}

/// A setting's answer.
#[repr(C)]
#[derive(Clone, Copy, Debug, PartialEq, Eq)]
pub struct Limited {
    pub node: Node,
    pub refusal: u8,
}

/// A next hop's answer.
#[repr(C)]
#[derive(Clone, Copy, Debug, PartialEq, Eq)]
pub struct Hop {
    pub node: u64,
    pub refusal: u8,
    pub action: u8,
}

/// A writer's answer.
#[repr(C)]
#[derive(Clone, Copy, Debug, PartialEq, Eq)]
pub struct Written {
    pub count: usize,
    pub refusal: u8,
}

/// A header reader's answer.
#[repr(C)]
#[derive(Clone, Copy, Debug, PartialEq, Eq)]
pub struct Read {
    pub address: u64,
    pub place: usize,
    pub refusal: u8,
}

/// An IPv6 reader's answer.
#[repr(C)]
#[derive(Clone, Copy, Debug, PartialEq, Eq)]
pub struct Address {
    pub address: u64,
    pub refusal: u8,
}

/// An NSA reader's answer.
#[repr(C)]
#[derive(Clone, Copy, Debug, PartialEq, Eq)]
pub struct Nsa {
    pub length: u64,
    pub source: u64,
    pub destination: u64,
    pub place: usize,
    pub refusal: u8,
}

/// A path's answer.
#[repr(C)]
#[derive(Clone, Copy, Debug, PartialEq, Eq)]
pub struct Listed {
    pub hops: u32,
    pub refusal: u8,
}

/// A plan reader's answer.
#[repr(C)]
#[derive(Clone, Copy, Debug, PartialEq, Eq)]
pub struct Plan {
    pub nodes: usize,
    pub place: usize,
    pub refusal: u8,
}

/// A journal writer's answer.
#[repr(C)]
#[derive(Clone, Copy, Debug, PartialEq, Eq)]
pub struct Block {
    pub slot: usize,
    pub refusal: u8,
}

/// Recovery's answer.
#[repr(C)]
#[derive(Clone, Copy, Debug, PartialEq, Eq)]
pub struct Recovered {
    pub nodes: usize,
    pub refusal: u8,
}

/// A node's record among recovered words.
#[repr(C)]
#[derive(Clone, Copy, Debug, PartialEq, Eq)]
pub struct Record {
    pub node: Node,
    pub found: u8,
}

/// What becomes of a packet, in [`Hop::action`].
pub const STOPPED: u8 = 0;
pub const DELIVERED: u8 = 1;
pub const TO_PARENT: u8 = 2;
pub const TO_CHILD: u8 = 3;

/// An archive whose structs or parameters are others exports a function of another name, and so does not link with this crate.
#[used]
static INTERFACE: unsafe extern "C" fn() -> u32 = pasa_interface_2;

extern "C" {
    pub fn pasa_interface_2() -> u32;
    pub fn pasa_parent(address: u64) -> u64;
    pub fn pasa_depth(address: u64) -> u32;
    pub fn pasa_bit_length(address: u64) -> u32;
    pub fn pasa_is_host(address: u64) -> u8;
    pub fn pasa_fresh(address: u64) -> Node;
    pub fn pasa_child_router(node: Node) -> Child;
    pub fn pasa_child_host(node: Node) -> Child;
    pub fn pasa_limit_routers(node: Node, limit: u64) -> Limited;
    pub fn pasa_limit_hosts(node: Node, limit: u64) -> Limited;
    pub fn pasa_next_hop(node: Node, destination: u64) -> Hop;
    pub fn pasa_packet_next_hop(node: Node, packet: *const u8, packet_length: usize) -> Hop;
    pub fn pasa_next_hops(
        node: Node,
        destinations: *const u64,
        destinations_length: usize,
        nodes: *mut u64,
        nodes_length: usize,
        actions: *mut u8,
        actions_length: usize,
        refusals: *mut u8,
        refusals_length: usize,
    ) -> usize;
    pub fn pasa_header_write(address: u64, out: *mut u8, out_length: usize) -> Written;
    pub fn pasa_header_read(packet: *const u8, packet_length: usize) -> Read;
    pub fn pasa_ipv6_write(prefix: *const u8, prefix_length: usize, address: u64, out: *mut u8, out_length: usize) -> Written;
    pub fn pasa_ipv6_read(prefix: *const u8, prefix_length: usize, ipv6: *const u8, ipv6_length: usize) -> Address;
    pub fn pasa_nsa_write(length: u64, source: u64, destination: u64, out: *mut u8, out_length: usize) -> Written;
    pub fn pasa_nsa_read(fields: *const u8, fields_length: usize) -> Nsa;
    pub fn pasa_path(first: u64, second: u64, words: *mut u64, words_length: usize) -> Listed;
    pub fn pasa_plan_read(text: *const u8, text_length: usize, words: *mut u64, words_length: usize) -> Plan;
    pub fn pasa_journal_write(journal: *mut u8, journal_length: usize, addresses: *const u64, addresses_length: usize) -> Block;
    pub fn pasa_journal_recover(journal: *const u8, journal_length: usize, words: *mut u64, words_length: usize) -> Recovered;
    pub fn pasa_journal_record(words: *const u64, words_length: usize, address: u64) -> Record;
    pub fn pasa_crc(octets: *const u8, octets_length: usize) -> u16;
}

#[cfg(test)]
mod tests {
    use super::*;
    use core::mem::{offset_of, size_of};

    /// The sizes and offsets that include/pasa.h asserts.
    #[test]
    fn structs_are_laid_out_as_in_the_header() {
        assert_eq!(size_of::<Node>(), 16);
        assert_eq!((offset_of!(Node, address), offset_of!(Node, routers), offset_of!(Node, hosts)), (0, 8, 9));
        assert_eq!((offset_of!(Node, router_limit), offset_of!(Node, host_limit)), (10, 11));
        assert_eq!(size_of::<Child>(), 32);
        assert_eq!((offset_of!(Child, node), offset_of!(Child, child), offset_of!(Child, refusal)), (0, 16, 24));
        assert_eq!((size_of::<Limited>(), offset_of!(Limited, node), offset_of!(Limited, refusal)), (24, 0, 16));
        assert_eq!(size_of::<Hop>(), 16);
        assert_eq!((offset_of!(Hop, node), offset_of!(Hop, refusal), offset_of!(Hop, action)), (0, 8, 9));
        assert_eq!((size_of::<Written>(), offset_of!(Written, count), offset_of!(Written, refusal)), (16, 0, 8));
        assert_eq!(size_of::<Read>(), 24);
        assert_eq!((offset_of!(Read, address), offset_of!(Read, place), offset_of!(Read, refusal)), (0, 8, 16));
        assert_eq!((size_of::<Address>(), offset_of!(Address, address), offset_of!(Address, refusal)), (16, 0, 8));
        assert_eq!(size_of::<Nsa>(), 40);
        assert_eq!((offset_of!(Nsa, length), offset_of!(Nsa, source), offset_of!(Nsa, destination)), (0, 8, 16));
        assert_eq!((offset_of!(Nsa, place), offset_of!(Nsa, refusal)), (24, 32));
        assert_eq!((size_of::<Listed>(), offset_of!(Listed, hops), offset_of!(Listed, refusal)), (8, 0, 4));
        assert_eq!(size_of::<Plan>(), 24);
        assert_eq!((offset_of!(Plan, nodes), offset_of!(Plan, place), offset_of!(Plan, refusal)), (0, 8, 16));
        assert_eq!((size_of::<Block>(), offset_of!(Block, slot), offset_of!(Block, refusal)), (16, 0, 8));
        assert_eq!((size_of::<Recovered>(), offset_of!(Recovered, nodes), offset_of!(Recovered, refusal)), (16, 0, 8));
        assert_eq!((size_of::<Record>(), offset_of!(Record, node), offset_of!(Record, found)), (24, 0, 16));
    }
}
