//! The two kinds of children, and what a node is asked about them.
use pasa::{Address, Node, Refusal};
use std::fmt;

#[derive(Clone, Copy)]
pub enum Kind {
    Router,
    Host,
}

impl Kind {
    /// Asks a node for its next child.
    pub fn child_of(self, node: &mut Node) -> Result<Address, Refusal> {
        match self {
            Kind::Router => node.router_child(),
            Kind::Host => node.host_child(),
        }
    }

    /// Sets how many children a node may give.
    pub fn limit_of(self, node: &mut Node, limit: u64) -> Result<(), Refusal> {
        match self {
            Kind::Router => node.set_router_limit(limit),
            Kind::Host => node.set_host_limit(limit),
        }
    }
}

impl fmt::Display for Kind {
    fn fmt(&self, f: &mut fmt::Formatter<'_>) -> fmt::Result {
        f.write_str(match self {
            Kind::Router => "router",
            Kind::Host => "host",
        })
    }
}
