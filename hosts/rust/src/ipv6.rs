//! The IPv6 form, both ways.
use crate::refusal::done;
use crate::{sys, Address, Refusal};

/// The octets of an IPv6 prefix.
pub const IPV6_PREFIX: usize = 8;

/// The octets of an IPv6 address.
pub const IPV6_WHOLE: usize = 16;

/// Writes the prefix, 8 octets, and the address behind it to the front of the buffer, and answers the octets, 16. Refusals: 12, 10.
pub fn write_ipv6(prefix: &[u8], address: Address, out: &mut [u8]) -> Result<usize, Refusal> {
    let answer = unsafe { sys::pasa_ipv6_write(prefix.as_ptr(), prefix.len(), address.number(), out.as_mut_ptr(), out.len()) };
    done(answer.refusal, || answer.count)
}

/// Reads an IPv6 address, 16 octets, that begins with the prefix, 8 octets. Refusals: 12, 8, 9.
pub fn read_ipv6(prefix: &[u8], ipv6: &[u8]) -> Result<Address, Refusal> {
    let answer = unsafe { sys::pasa_ipv6_read(prefix.as_ptr(), prefix.len(), ipv6.as_ptr(), ipv6.len()) };
    done(answer.refusal, || Address::answered(answer.address))
}
