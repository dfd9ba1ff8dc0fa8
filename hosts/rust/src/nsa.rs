//! The older NSA fields, both ways: payload length, source and destination in a row.
use crate::refusal::done;
use crate::{sys, Address, Refusal};

/// The most octets of the three fields.
pub const NSA_MOST: usize = 23;

/// The fewest: one for each.
const NSA_FEWEST: usize = 3;

/// The longest payload length that can be written: what two octets give, and 252.
pub const NSA_LENGTH_MOST: u64 = 65_787;

/// What the older NSA fields say of a packet, in the order in which they stand.
#[derive(Clone, Copy, Debug, PartialEq, Eq, Hash)]
pub struct NsaFields {
    /// The payload length, at most [`NSA_LENGTH_MOST`]: a larger one is refused with 14 when it is to be written.
    pub length: u64,
    /// Where the packet comes from.
    pub source: Address,
    /// Where it goes to.
    pub destination: Address,
}

/// Writes the fields to the front of the buffer, each in its shortest form, and answers their octets, at most [`NSA_MOST`]. Refusals: 14 (a payload
/// length above 65,787), 10.
///
/// ```
/// use pasa::{read_nsa, write_nsa, Address, NsaFields, Refusal, NSA_MOST};
///
/// let fields = NsaFields { length: 1280, source: Address::new(0b111110)?, destination: Address::new(0x1_0000)? };
/// let mut out = [0; NSA_MOST];
/// let count = write_nsa(fields, &mut out)?;
/// assert_eq!(out[..count], [0xFE, 0x04, 0x04, 0x3E, 0xFE, 0x00, 0x01, 0x00, 0x00]);
/// assert_eq!(read_nsa(&out)?, (fields, count));
///
/// // the same source in a longer form
/// assert_eq!(read_nsa(&[0x00, 0xFD, 0x00, 0x3E, 0x2B]), Err(Refusal::WrongSize));
/// # Ok::<(), pasa::Refusal>(())
/// ```
pub fn write_nsa(fields: NsaFields, out: &mut [u8]) -> Result<usize, Refusal> {
    let (source, destination) = (fields.source.number(), fields.destination.number());
    let answer = unsafe { sys::pasa_nsa_write(fields.length, source, destination, out.as_mut_ptr(), out.len()) };
    written(answer, out.len())
}

/// Reads the fields at the front of some octets, and answers them and the place behind them, where nothing need stand. What is read is what
/// [`write_nsa`] would write. Refusals: those of the first field that has one, 4 (an octet of it is missing), 6 (it isn't the shortest form), 9 (an
/// address of one zero octet).
pub fn read_nsa(octets: &[u8]) -> Result<(NsaFields, usize), Refusal> {
    let answer = unsafe { sys::pasa_nsa_read(octets.as_ptr(), octets.len()) };
    read(answer, octets.len())
}

/// Whether three fields can end at this place of so many octets.
fn is_end(place: usize, octets: usize) -> bool {
    (NSA_FEWEST..=NSA_MOST.min(octets)).contains(&place)
}

/// The octets in an answer. Others than three fields have, or more than were lent, stop the program: they are no answer of this archive's.
fn written(answer: sys::Written, room: usize) -> Result<usize, Refusal> {
    done(answer.refusal, || {
        assert!(is_end(answer.count, room), "three fields in {room} octets are not {} octets", answer.count);
        answer.count
    })
}

/// The fields in an answer, and the place behind them. A payload length that they don't hold, an address of zero, or a place where no three fields
/// end stops the program: it is no answer of this archive's.
fn read(answer: sys::Nsa, octets: usize) -> Result<(NsaFields, usize), Refusal> {
    done(answer.refusal, || {
        assert!(is_end(answer.place, octets), "three fields in {octets} octets do not end at place {}", answer.place);
        assert!(answer.length <= NSA_LENGTH_MOST, "no payload length of the fields is {}", answer.length);
        let (source, destination) = (Address::answered(answer.source), Address::answered(answer.destination));
        (NsaFields { length: answer.length, source, destination }, answer.place)
    })
}

#[cfg(test)]
mod tests {
    use super::*;

    /// What is made of an answer to a room of so many octets.
    fn count(count: usize, refusal: u8, room: usize) -> Result<usize, Refusal> {
        written(sys::Written { count, refusal }, room)
    }

    /// What is made of an answer to 30 octets, with these addresses.
    fn fields(source: u64, destination: u64, place: usize, refusal: u8) -> Result<(NsaFields, usize), Refusal> {
        read(sys::Nsa { length: 5, source, destination, place, refusal }, 30)
    }

    #[test]
    fn fields_are_written_and_read_by_refusal_0_alone() {
        let (source, destination) = (Address::ROOT, Address::new(2).unwrap());
        assert_eq!((count(3, 0, 3), count(23, 0, 30)), (Ok(3), Ok(23)));
        assert_eq!(fields(1, 2, 3, 0), Ok((NsaFields { length: 5, source, destination }, 3)));
        for number in 1..=u8::MAX {
            assert_eq!(count(3, number, 30).unwrap_err().number(), number);
            assert_eq!(fields(1, 2, 3, number).unwrap_err().number(), number);
        }
    }

    #[test]
    fn numbers_that_no_fields_have_stop() {
        for (octets, room) in [(0, 30), (2, 30), (24, 30), (4, 3), (usize::MAX, 30)] {
            assert!(std::panic::catch_unwind(|| count(octets, 0, room)).is_err(), "{octets} octets in {room}");
        }
        let long = sys::Nsa { length: NSA_LENGTH_MOST + 1, source: 1, destination: 1, place: 5, refusal: 0 };
        assert!(std::panic::catch_unwind(|| read(long, 30)).is_err(), "a payload length of 65,788");
        for (source, destination, place) in [(0, 1, 3), (1, 0, 3), (1, 1, 0), (1, 1, 2), (1, 1, 24), (1, 1, usize::MAX)] {
            assert!(std::panic::catch_unwind(|| fields(source, destination, place, 0)).is_err(), "{source} {destination} {place}");
        }
    }
}
