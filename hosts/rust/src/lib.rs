//! PASA addresses in Rust: children and limits on them, next hops, packet headers, IPv6 forms, the older NSA fields, paths, hall plans and journals,
//! by the proved functions of libpasa.a.
//!
//! ```
//! use pasa::{Address, Hop, Node, Refusal};
//!
//! # fn main() -> Result<(), pasa::Refusal> {
//! // The root gives its first router and its first host an address.
//! let mut root = Node::fresh(Address::ROOT);
//! let router = root.router_child()?;
//! let host = root.host_child()?;
//! assert_eq!((router.to_string(), host.to_string()), ("10".into(), "11".into()));
//!
//! // A packet for the router, met at the host, goes to the host's parent, and from there to the router.
//! let mut packet = [0; 16];
//! let payload = pasa::write_header(router, &mut packet)?;
//! assert_eq!(pasa::read_header(&packet)?, (router, payload));
//! assert_eq!(Node::fresh(host).packet_next_hop(&packet)?, Hop::Parent(Address::ROOT));
//! assert_eq!(root.packet_next_hop(&packet)?, Hop::Child(router));
//!
//! // Its payload is what stands behind the header. With none it goes nowhere.
//! assert_eq!(root.packet_next_hop(&packet[..payload]), Err(Refusal::EmptyPayload));
//! # Ok(())
//! # }
//! ```
//!
//! A node may have a limit on the children of each kind; one that is at it refuses the next:
//!
//! ```
//! use pasa::{Address, Node, Refusal};
//!
//! # fn main() -> Result<(), pasa::Refusal> {
//! let mut root = Node::fresh(Address::ROOT);
//! root.set_host_limit(1)?;
//! root.host_child()?;
//! assert_eq!(root.host_child(), Err(Refusal::AtLimit));
//! root.set_host_limit(u64::from(pasa::NO_CAP))?;
//! root.host_child()?;
//! # Ok(())
//! # }
//! ```
//!
//! The README's example:
//!
//! ```
//! fn main() -> Result<(), pasa::Refusal> {
//!     let mut root = pasa::Node::fresh(pasa::Address::ROOT);
//!     let router = root.router_child()?;
//!     println!("{:?}", root.next_hop(router)?);
//!     Ok(())
//! }
//! ```
//!
//! The crate has no dependencies, allocates nothing and needs no `std`. It fails closed: a refusal whose number it doesn't know is
//! [`Refusal::Unknown`], and an answer that says neither a refusal nor anything that it knows stops the program (a panic). With the archive
//! that it is made for neither happens, and an archive with another interface does not link.
#![no_std]

#[cfg(test)]
extern crate std;

mod address;
mod header;
mod hop;
mod ipv6;
mod journal;
mod node;
mod nsa;
mod plan;
mod refusal;
mod route;
pub mod sys;

pub use address::Address;
pub use header::{read_header, write_header, HEADER_MOST};
pub use hop::Hop;
pub use ipv6::{read_ipv6, write_ipv6, IPV6_PREFIX, IPV6_WHOLE};
pub use journal::{crc, recover_journal, recovered_record, write_block, BLOCK_MOST, NODES, SLOT, SLOTS};
pub use node::{Node, NO_CAP};
pub use nsa::{read_nsa, write_nsa, NsaFields, NSA_LENGTH_MOST, NSA_MOST};
pub use plan::{read_plan, PlanRefusal, PLAN_BYTES, PLAN_NODES};
pub use refusal::Refusal;
pub use route::{path, PATH_MOST};

/// The number of the interface that the archive has, which is the one that this crate is made for.
pub fn interface() -> u32 {
    unsafe { sys::pasa_interface_2() }
}
