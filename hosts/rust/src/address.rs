//! Addresses, and what one answers by itself.
use crate::{sys, Refusal};
use core::fmt;
use core::num::NonZeroU64;

/// A string of 1 to 64 bits whose first bit is 1: any 64-bit number but zero. It is shown in binary digits.
#[derive(Clone, Copy, PartialEq, Eq, PartialOrd, Ord, Hash)]
pub struct Address(NonZeroU64);

impl Address {
    /// The longest length in bits.
    pub const LONGEST: u32 = 64;

    /// The root's address.
    pub const ROOT: Address = Address(NonZeroU64::MIN);

    /// The address that a number holds. Zero is refused with 9.
    pub const fn new(number: u64) -> Result<Address, Refusal> {
        match NonZeroU64::new(number) {
            Some(number) => Ok(Address(number)),
            None => Err(Refusal::ZeroAddress),
        }
    }

    /// The number that holds it, right-justified.
    pub const fn number(self) -> u64 {
        self.0.get()
    }

    /// The address less its last step; the root has none.
    pub fn parent(self) -> Option<Address> {
        NonZeroU64::new(unsafe { sys::pasa_parent(self.number()) }).map(Address)
    }

    /// The number of steps from the root, 0 to 63.
    pub fn depth(self) -> u32 {
        unsafe { sys::pasa_depth(self.number()) }
    }

    /// The length in bits, 1 to 64.
    pub fn bit_length(self) -> u32 {
        unsafe { sys::pasa_bit_length(self.number()) }
    }

    /// Whether this is a host's address; the root's is not.
    pub fn is_host(self) -> bool {
        yes(unsafe { sys::pasa_is_host(self.number()) })
    }

    /// The address in an answer without a refusal. Zero stops the program: such an answer names an address, or it is none of this archive's.
    pub(crate) fn answered(number: u64) -> Address {
        Address(NonZeroU64::new(number).expect("an answer without a refusal names an address"))
    }
}

/// What 1 and 0 say. Any other number stops the program: it is no answer of this archive's.
pub(crate) fn yes(number: u8) -> bool {
    match number {
        0 => false,
        1 => true,
        other => panic!("a yes or no is 1 or 0, not {other}"),
    }
}

impl fmt::Display for Address {
    fn fmt(&self, f: &mut fmt::Formatter<'_>) -> fmt::Result {
        write!(f, "{:b}", self.0)
    }
}

impl fmt::Debug for Address {
    fn fmt(&self, f: &mut fmt::Formatter<'_>) -> fmt::Result {
        write!(f, "{:#b}", self.0)
    }
}

#[cfg(test)]
mod tests {
    use super::*;

    #[test]
    #[should_panic(expected = "names an address")]
    fn an_answer_without_address_stops() {
        Address::answered(0);
    }

    #[test]
    #[should_panic(expected = "not 2")]
    fn neither_yes_nor_no_stops() {
        assert_eq!((yes(0), yes(1)), (false, true));
        yes(2);
    }
}
