//! Why a call was refused.
use core::error::Error;
use core::fmt;

/// Why a call was refused, by the documents' number.
///
/// A number that no document gives is a refusal too, [`Refusal::Unknown`]: an archive that answers one is not of this crate's version, and
/// what it refused is not done.
#[derive(Clone, Copy, Debug, PartialEq, Eq, Hash)]
#[non_exhaustive]
pub enum Refusal {
    BadRecord,
    HostAsked,
    TooLong,
    EndsEarly,
    WrongStart,
    WrongSize,
    ChildNotGiven,
    OtherPrefix,
    ZeroAddress,
    NoRoom,
    BadLine,
    WrongLength,
    BadPlan,
    TooMany,
    AtLimit,
    EmptyPayload,
    BadJournal,
    /// A number that this crate doesn't know.
    Unknown(u8),
}

/// The refusals that the documents number, and their words.
const TABLE: [(Refusal, &str); 17] = [
    (Refusal::BadRecord, "the node record is bad, or a limit to set isn't 0 to 64 or is below its count"),
    (Refusal::HostAsked, "a host is asked for a child"),
    (Refusal::TooLong, "the child would be longer than 64 bits"),
    (Refusal::EndsEarly, "the packet ends too early"),
    (Refusal::WrongStart, "one of the first three octets is wrong"),
    (
        Refusal::WrongSize,
        "a size above 8, a first octet of zero where there are several, or an NSA field that isn't the shortest form of a number",
    ),
    (Refusal::ChildNotGiven, "destination below this node, child not given"),
    (Refusal::OtherPrefix, "IPv6 prefix differs"),
    (Refusal::ZeroAddress, "an address is zero"),
    (Refusal::NoRoom, "lent output too short, or no slot of a journal is erased"),
    (Refusal::BadLine, "the path program's input isn't the one line it reads"),
    (
        Refusal::WrongLength,
        "an IPv6 address isn't 16 octets, a prefix isn't 8, a journal isn't 1 to 128 slots, or a block isn't 1 to 63 addresses",
    ),
    (Refusal::BadPlan, "a plan's text is outside the grammar"),
    (Refusal::TooMany, "a plan has too many bytes, a plan or a journal too many nodes, or an NSA payload length is above 65,787"),
    (Refusal::AtLimit, "a node is asked for a child at its limit"),
    (Refusal::EmptyPayload, "the payload is empty"),
    (Refusal::BadJournal, "a journal's slot is out of place or no right block, or an address in it is no next child"),
];

impl Refusal {
    /// The documents' number, 1 to 17, or the unknown one.
    pub const fn number(self) -> u8 {
        match self {
            Refusal::BadRecord => 1,
            Refusal::HostAsked => 2,
            Refusal::TooLong => 3,
            Refusal::EndsEarly => 4,
            Refusal::WrongStart => 5,
            Refusal::WrongSize => 6,
            Refusal::ChildNotGiven => 7,
            Refusal::OtherPrefix => 8,
            Refusal::ZeroAddress => 9,
            Refusal::NoRoom => 10,
            Refusal::BadLine => 11,
            Refusal::WrongLength => 12,
            Refusal::BadPlan => 13,
            Refusal::TooMany => 14,
            Refusal::AtLimit => 15,
            Refusal::EmptyPayload => 16,
            Refusal::BadJournal => 17,
            Refusal::Unknown(number) => number,
        }
    }

    /// The refusal of a number; none for 0 alone, which is "done".
    pub fn of(number: u8) -> Option<Refusal> {
        if number == 0 {
            return None;
        }
        let row = TABLE.iter().find(|row| row.0.number() == number);
        Some(row.map_or(Refusal::Unknown(number), |row| row.0))
    }

    /// The documents' words.
    pub fn text(self) -> &'static str {
        TABLE.iter().find(|row| row.0 == self).map_or("a refusal that this version doesn't know", |row| row.1)
    }
}

impl fmt::Display for Refusal {
    fn fmt(&self, f: &mut fmt::Formatter<'_>) -> fmt::Result {
        write!(f, "refused {}: {}", self.number(), self.text())
    }
}

impl Error for Refusal {}

/// What an answer says: its value where its refusal is 0, and otherwise the refusal.
pub(crate) fn done<T>(refusal: u8, value: impl FnOnce() -> T) -> Result<T, Refusal> {
    match Refusal::of(refusal) {
        None => Ok(value()),
        Some(refusal) => Err(refusal),
    }
}

#[cfg(test)]
mod tests {
    use super::*;

    #[test]
    fn zero_alone_is_done() {
        assert_eq!(done(0, || 5), Ok(5));
        for number in 1..=u8::MAX {
            let refusal = done(number, || 5).unwrap_err();
            assert_eq!(refusal.number(), number);
            assert_eq!(matches!(refusal, Refusal::Unknown(_)), !matches!(number, 1..=17), "{refusal}");
        }
    }
}
