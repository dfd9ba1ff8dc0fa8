//! What is shown of an address that was read, and of octets behind it.
use pasa::Address;
use std::fmt;
use std::io::{self, Write};

/// What an address is by itself.
#[derive(Clone, Copy, PartialEq, Eq)]
pub enum Kind {
    Root,
    Router,
    Host,
}

impl Kind {
    pub fn of(address: Address) -> Kind {
        if address == Address::ROOT {
            Kind::Root
        } else if address.is_host() {
            Kind::Host
        } else {
            Kind::Router
        }
    }
}

impl fmt::Display for Kind {
    fn fmt(&self, f: &mut fmt::Formatter<'_>) -> fmt::Result {
        f.pad(match self {
            Kind::Root => "root",
            Kind::Router => "router",
            Kind::Host => "host",
        })
    }
}

/// The address in binary digits and in hexadecimal.
pub fn both(address: Address) -> String {
    format!("{address} ({:#x})", address.number())
}

/// So many octets.
pub fn octets(count: usize) -> String {
    format!("{count} octet{}", if count == 1 { "" } else { "s" })
}

/// A line each for the address, its kind, its depth and its parent.
pub fn describe(address: Address, out: &mut dyn Write) -> io::Result<()> {
    writeln!(out, "address {}", both(address))?;
    writeln!(out, "kind    {}", Kind::of(address))?;
    writeln!(out, "depth   {}", address.depth())?;
    match address.parent() {
        Some(parent) => writeln!(out, "parent  {parent}"),
        None => writeln!(out, "parent  none"),
    }
}
