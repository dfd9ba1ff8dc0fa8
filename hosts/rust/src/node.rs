//! A node's record, the children that it gives, the limits on them, and the next hops that it names.
use crate::refusal::done;
use crate::{sys, Address, Hop, Refusal};

/// The limit of a node that has none, which is the highest one too.
pub const NO_CAP: u8 = 64;

/// A node's record: its address with the router children and the host children given so far, and how many of each it may give.
///
/// There is one record of a node, and it is neither `Copy` nor `Clone`: a copy that is asked again gives the same address a second time, to
/// another node. Asking for a child raises the count in the record itself, so the next child differs:
///
/// ```
/// # use pasa::{Address, Node};
/// let mut root = Node::fresh(Address::ROOT);
/// let first = root.router_child()?;
/// let second = root.router_child()?;
/// assert_ne!(first, second);
/// # Ok::<(), pasa::Refusal>(())
/// ```
///
/// The same with a copy does not compile, be it made by assignment, which moves the record,
///
/// ```compile_fail,E0382
/// # use pasa::{Address, Node};
/// let mut root = Node::fresh(Address::ROOT);
/// let mut copy = root;
/// let first = root.router_child()?;
/// let second = copy.router_child()?;
/// # Ok::<(), pasa::Refusal>(())
/// ```
///
/// or by `clone`, which it doesn't have,
///
/// ```compile_fail,E0599
/// # use pasa::{Address, Node};
/// let mut root = Node::fresh(Address::ROOT);
/// let mut copy = root.clone();
/// let first = root.router_child()?;
/// let second = copy.router_child()?;
/// # Ok::<(), pasa::Refusal>(())
/// ```
///
/// or from its fields, which are read by [`address`](Node::address), [`routers`](Node::routers), [`hosts`](Node::hosts) and so on, and set by
/// nobody:
///
/// ```compile_fail,E0451
/// # use pasa::{Address, Node};
/// let mut root = Node::fresh(Address::ROOT);
/// let mut copy = Node { address: root.address(), routers: root.routers(), hosts: root.hosts(), router_limit: 64, host_limit: 64 };
/// let first = root.router_child()?;
/// let second = copy.router_child()?;
/// # Ok::<(), pasa::Refusal>(())
/// ```
///
/// What is left is to say so: a record that was stored is taken up again by [`Node::restore`], one that a journal keeps by
/// [`recovered_record`](crate::recovered_record), and a node begins with [`Node::fresh`]. Each is called once for a node's life, or life since it
/// was stored.
#[derive(Debug, PartialEq, Eq, Hash)]
pub struct Node {
    address: Address,
    routers: u8,
    hosts: u8,
    router_limit: u8,
    host_limit: u8,
}

impl Node {
    /// The record that a node starts with: both counts 0, and no limits, which is [`NO_CAP`]. Once for each node, when it gets its address.
    pub fn fresh(address: Address) -> Node {
        Node::answered(unsafe { sys::pasa_fresh(address.number()) })
    }

    /// Takes up the record that a node stored, with the counts that it had then. This is how one record can come to be there twice: whoever
    /// restores one that is still in use, or that gave children after it was stored, gives an address twice.
    ///
    /// Counts that no node can have make a bad record, which every call refuses with 1.
    ///
    /// The limits are [`NO_CAP`], as a fresh record's. One that had others is restored with its counts and then has them set, by
    /// [`set_router_limit`](Node::set_router_limit) and [`set_host_limit`](Node::set_host_limit), before it is asked for anything:
    ///
    /// ```
    /// # use pasa::{Address, Node, Refusal};
    /// let mut stored = Node::fresh(Address::ROOT);
    /// stored.set_host_limit(1)?;
    /// stored.host_child()?;
    ///
    /// let mut root = Node::restore(stored.address(), stored.routers(), stored.hosts());
    /// root.set_router_limit(stored.router_limit().into())?;
    /// root.set_host_limit(stored.host_limit().into())?;
    /// assert_eq!(root, stored);
    /// assert_eq!(root.host_child(), Err(Refusal::AtLimit));
    /// # Ok::<(), pasa::Refusal>(())
    /// ```
    pub fn restore(address: Address, routers: u8, hosts: u8) -> Node {
        Node { routers, hosts, ..Node::fresh(address) }
    }

    /// The node's address.
    pub fn address(&self) -> Address {
        self.address
    }

    /// The router children given so far.
    pub fn routers(&self) -> u8 {
        self.routers
    }

    /// The host children given so far.
    pub fn hosts(&self) -> u8 {
        self.hosts
    }

    /// How many router children it may give, those given so far among them; [`NO_CAP`] where there is no limit.
    pub fn router_limit(&self) -> u8 {
        self.router_limit
    }

    /// How many host children it may give, those given so far among them; [`NO_CAP`] where there is no limit.
    pub fn host_limit(&self) -> u8 {
        self.host_limit
    }

    pub(crate) fn answered(node: sys::Node) -> Node {
        let sys::Node { address, routers, hosts, router_limit, host_limit } = node;
        Node { address: Address::answered(address), routers, hosts, router_limit, host_limit }
    }

    fn record(&self) -> sys::Node {
        let Node { address, routers, hosts, router_limit, host_limit } = *self;
        sys::Node { address: address.number(), routers, hosts, router_limit, host_limit }
    }

    // The record answered is taken over also with a refusal: then it is the one handed in.
    fn child(&mut self, answer: sys::Child) -> Result<Address, Refusal> {
        *self = Node::answered(answer.node);
        done(answer.refusal, || Address::answered(answer.child))
    }

    /// Gives the next router child: this record's count is raised. Refusals: 1, 2, 15, 3.
    pub fn router_child(&mut self) -> Result<Address, Refusal> {
        self.child(unsafe { sys::pasa_child_router(self.record()) })
    }

    /// Gives the next host child: this record's count is raised. Refusals: 1, 2, 15, 3.
    pub fn host_child(&mut self) -> Result<Address, Refusal> {
        self.child(unsafe { sys::pasa_child_host(self.record()) })
    }

    // The record answered is taken over also with a refusal: then it is the one handed in.
    fn limited(&mut self, answer: sys::Limited) -> Result<(), Refusal> {
        *self = Node::answered(answer.node);
        done(answer.refusal, || ())
    }

    /// Sets how many router children it may give, those given so far among them; [`NO_CAP`] takes the limit away. Refusal 1: the limit is above
    /// [`NO_CAP`] or below the count, or the record is bad; then the record stays as it was.
    ///
    /// ```
    /// # use pasa::{Address, Node, Refusal};
    /// let mut root = Node::fresh(Address::ROOT);
    /// root.set_router_limit(2)?;
    /// root.router_child()?;
    /// assert_eq!(root.set_router_limit(0), Err(Refusal::BadRecord));
    /// assert_eq!(root.set_router_limit(65), Err(Refusal::BadRecord));
    /// assert_eq!((root.routers(), root.router_limit()), (1, 2));
    /// # Ok::<(), pasa::Refusal>(())
    /// ```
    pub fn set_router_limit(&mut self, limit: u64) -> Result<(), Refusal> {
        self.limited(unsafe { sys::pasa_limit_routers(self.record(), limit) })
    }

    /// Sets how many host children it may give, as [`set_router_limit`](Node::set_router_limit) does for router children.
    pub fn set_host_limit(&mut self, limit: u64) -> Result<(), Refusal> {
        self.limited(unsafe { sys::pasa_limit_hosts(self.record(), limit) })
    }

    /// The next hop at this node for a packet to the destination. Refusals: 1, 7.
    pub fn next_hop(&self, destination: Address) -> Result<Hop, Refusal> {
        Hop::answered(unsafe { sys::pasa_next_hop(self.record(), destination.number()) })
    }

    /// The next hop at this node for a packet. Refusals: 1, then a reader's, of which 16 (the payload is empty) is the last, then 7.
    pub fn packet_next_hop(&self, packet: &[u8]) -> Result<Hop, Refusal> {
        Hop::answered(unsafe { sys::pasa_packet_next_hop(self.record(), packet.as_ptr(), packet.len()) })
    }

    /// The next hops at this node for many destinations, over plain numbers: as many as the shortest slice allows, which is the answer. A
    /// refused destination has its refusal at its index, with node 0 and action 0. The rest of the slices stays as it was. The actions are
    /// those of [`sys`].
    pub fn next_hops(&self, destinations: &[u64], nodes: &mut [u64], actions: &mut [u8], refusals: &mut [u8]) -> usize {
        unsafe {
            sys::pasa_next_hops(
                self.record(),
                destinations.as_ptr(),
                destinations.len(),
                nodes.as_mut_ptr(),
                nodes.len(),
                actions.as_mut_ptr(),
                actions.len(),
                refusals.as_mut_ptr(),
                refusals.len(),
            )
        }
    }
}

#[cfg(test)]
mod tests {
    use super::*;

    const ANSWERED: sys::Node = sys::Node { address: 1, routers: 4, hosts: 2, router_limit: 5, host_limit: 64 };

    fn answer(child: u64, refusal: u8) -> sys::Child {
        sys::Child { node: ANSWERED, child, refusal }
    }

    /// A record of its own for each field, so that none is taken for another.
    #[test]
    fn fields_keep_their_places() {
        let numbers = sys::Node { address: 6, routers: 1, hosts: 2, router_limit: 3, host_limit: 4 };
        let node = Node::answered(numbers);
        assert_eq!((node.address(), node.routers(), node.hosts()), (Address::answered(6), 1, 2));
        assert_eq!((node.router_limit(), node.host_limit()), (3, 4));
        assert_eq!(node.record(), numbers);
    }

    #[test]
    fn a_child_is_given_by_refusal_0_alone() {
        let mut root = Node::fresh(Address::ROOT);
        assert_eq!(root.child(answer(0b10, 0)), Ok(Address::answered(0b10)));
        assert_eq!(root, Node::answered(ANSWERED));
        assert_eq!(root.child(answer(0b10, 15)), Err(Refusal::AtLimit));
        assert_eq!(root.child(answer(0b10, 18)), Err(Refusal::Unknown(18)));
        assert_eq!(root.child(answer(0b10, 255)), Err(Refusal::Unknown(255)));
    }

    #[test]
    fn a_limit_is_set_by_refusal_0_alone() {
        for number in 0..=u8::MAX {
            let mut root = Node::fresh(Address::ROOT);
            let set = root.limited(sys::Limited { node: ANSWERED, refusal: number });
            assert_eq!(set.map_or_else(Refusal::number, |()| 0), number);
            assert_eq!(root, Node::answered(ANSWERED));
        }
    }

    #[test]
    #[should_panic(expected = "names an address")]
    fn a_child_without_address_stops() {
        let _ = Node::fresh(Address::ROOT).child(answer(0, 0));
    }
}
