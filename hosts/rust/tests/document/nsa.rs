//! The older address fields by the sentences of request Seven: "we need writer and reader for three in a row: payload length, source,
//! destination." The writer lists every form of a number and takes the shortest; the reader takes the number out of a form and looks whether that is
//! the one that would be written.
use super::written;
use pasa::sys::{Nsa, Written};

/// "Numbers stand high octet first.": a number in so many octets with others before them, if it has no more.
fn behind(front: &[u8], number: u64, count: usize) -> Option<Vec<u8>> {
    let octets = number.to_be_bytes();
    let (more, rest) = octets.split_at(8 - count);
    more.iter().all(|octet| *octet == 0).then(|| [front, rest].concat())
}

/// "to 252 is one octet"
fn one_octet(number: u64) -> Option<Vec<u8>> {
    behind(&[], number, 1).filter(|octets| octets[0] <= 252)
}

/// Every form of an address: "An address to 252 is one octet; 253 is followed by two octets, 254 by four, 255 by a length and that many octets." Zero
/// has forms too, and 255 those with zeros in front, as far as to eight octets.
pub fn address_forms(address: u64) -> impl Iterator<Item = Vec<u8>> {
    let marked = [one_octet(address), behind(&[253], address, 2), behind(&[254], address, 4)];
    let counted = (1..=8).map(move |count| behind(&[255, count], address, usize::from(count)));
    marked.into_iter().chain(counted).flatten()
}

/// Every form of a payload length: "A payload length to 252 is one octet; 253 is followed by one octet and 254 by two, each plus 252; 255 is
/// refused".
pub fn length_forms(length: u64) -> impl Iterator<Item = Vec<u8>> {
    let marked = |mark, count| behind(&[mark], length.checked_sub(252)?, count);
    [one_octet(length), marked(253, 1), marked(254, 2)].into_iter().flatten()
}

/// "Only the shortest form is accepted". Of two that are equally short the one named first: "so after 255 the length is 5 to 8", and is neither 1
/// beside 253 nor 3 beside 254.
fn shortest(forms: impl Iterator<Item = Vec<u8>>) -> Vec<u8> {
    forms.min_by_key(Vec::len).expect("a number with a form")
}

/// The three fields.
pub fn fields([length, source, destination]: [u64; 3]) -> [Vec<u8>; 3] {
    [shortest(length_forms(length)), shortest(address_forms(source)), shortest(address_forms(destination))]
}

/// "A length to write above 65,787 is 14, checked first; then 9; then 10."
pub fn write(length: u64, source: u64, destination: u64, out: &mut [u8]) -> Written {
    let is_zero = source == 0 || destination == 0;
    written([(length > 65_787, 14), (is_zero, 9), (false, 0)], || fields([length, source, destination]).concat(), out)
}

/// The number in so many octets at a place: "Within a field a missing octet is 4 and comes before any judgement of the value".
fn number(octets: &[u8], place: usize, count: usize) -> Result<u64, u8> {
    let octets = octets.get(place..place + count).ok_or(4)?;
    Ok(octets.iter().fold(0, |number, octet| number * 256 + u64::from(*octet)))
}

/// The payload length at the front of some octets, and how many are its own; or a refusal.
fn length(octets: &[u8]) -> Result<(u64, usize), u8> {
    let (length, size) = match number(octets, 0, 1)? {
        // "255 is refused with 6"
        255 => return Err(6),
        254 => (252 + number(octets, 1, 2)?, 3),
        253 => (252 + number(octets, 1, 1)?, 2),
        length => (length, 1),
    };
    judged(length, &octets[..size], shortest(length_forms(length)))
}

/// The address at the front of some octets, and how many are its own; or a refusal.
fn address(octets: &[u8]) -> Result<(u64, usize), u8> {
    let (front, count) = match number(octets, 0, 1)? {
        255 => {
            let count = number(octets, 1, 1)?;
            // "the length octet after 255 is judged before its address octets are looked for"
            if !(5..=8).contains(&count) {
                return Err(6);
            }
            (2, count as usize)
        }
        254 => (1, 4),
        253 => (1, 2),
        _ => (0, 1),
    };
    let address = number(octets, front, count)?;
    let octets = &octets[..front + count];
    // "Address zero in one octet is 9, longer zeros are 6."
    if octets == [0] {
        return Err(9);
    }
    judged(address, octets, shortest(address_forms(address)))
}

/// "Whatever is accepted is what we would write".
fn judged(number: u64, octets: &[u8], form: Vec<u8>) -> Result<(u64, usize), u8> {
    if form == octets {
        Ok((number, octets.len()))
    } else {
        Err(6)
    }
}

/// The three numbers, each with the octets that it takes; or the faulty field, counted from 0, and its refusal.
pub type ReadFields = Result<[(u64, usize); 3], (usize, u8)>;

/// "The first faulty field decides."
pub fn read_fields(octets: &[u8]) -> ReadFields {
    let mut read = [(0, 0); 3];
    let mut rest = octets;
    for (field, reader) in [length, address, address].into_iter().enumerate() {
        read[field] = reader(rest).map_err(|refusal| (field, refusal))?;
        rest = &rest[read[field].1..];
    }
    Ok(read)
}

/// "The reader answers these and the place after them".
pub fn answer(read: ReadFields) -> Nsa {
    match read {
        Err((_, refusal)) => Nsa { length: 0, source: 0, destination: 0, place: 0, refusal },
        Ok([(length, a), (source, b), (destination, c)]) => Nsa { length, source, destination, place: a + b + c, refusal: 0 },
    }
}

pub fn read(octets: &[u8]) -> Nsa {
    answer(read_fields(octets))
}
