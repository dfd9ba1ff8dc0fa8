//! The packet header, both ways.
use crate::refusal::done;
use crate::{sys, Address, Refusal};

/// The most octets of a header.
pub const HEADER_MOST: usize = 11;

/// Writes the address's header to the front of the buffer, and answers its octets. Refusal: 10.
///
/// Alone, what it writes is refused by [`read_header`] with 16: a payload of at least one octet has to stand behind it.
pub fn write_header(address: Address, out: &mut [u8]) -> Result<usize, Refusal> {
    let answer = unsafe { sys::pasa_header_write(address.number(), out.as_mut_ptr(), out.len()) };
    done(answer.refusal, || answer.count)
}

/// Reads the header at the front of a packet: the address, and the place where the payload begins, which has at least one octet. Refusals: 4, 5, 6,
/// 9, and behind all of them 16 (the payload is empty).
///
/// ```
/// use pasa::{read_header, write_header, Address, Refusal, HEADER_MOST};
///
/// let router = Address::new(0b111110)?;
/// let mut packet = [0; HEADER_MOST + 1];
/// let place = write_header(router, &mut packet)?;
/// assert_eq!(read_header(&packet[..place]), Err(Refusal::EmptyPayload));
/// assert_eq!(read_header(&packet[..=place])?, (router, place));
/// # Ok::<(), pasa::Refusal>(())
/// ```
pub fn read_header(packet: &[u8]) -> Result<(Address, usize), Refusal> {
    let answer = unsafe { sys::pasa_header_read(packet.as_ptr(), packet.len()) };
    done(answer.refusal, || (Address::answered(answer.address), answer.place))
}
