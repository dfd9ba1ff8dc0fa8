//! A hall plan by the sentences of request One: "Our planners write a hall as text"; and with the limits of request Six: "A plan .. may now have
//! 4,096 nodes, the root counted, and a plan 32,768 bytes."
use super::{number, step_bits, Bits, Kind};
use pasa::sys::Plan;

/// What is left of a text behind the group at its front: "`R(` items `)`, an item being `H` for a host or another `R(` items `)`, with no spaces
/// and possibly no items". Nothing where no group stands there, or where more than so many are open at once.
fn behind_group(text: &[u8], allowed: usize) -> Option<&[u8]> {
    if allowed == 0 {
        return None;
    }
    let mut rest = text.strip_prefix(b"R(")?;
    loop {
        rest = match rest.first()? {
            b')' => return Some(&rest[1..]),
            b'H' => &rest[1..],
            _ => behind_group(rest, allowed - 1)?,
        };
    }
}

/// "with at most 64 groups open at once"
fn in_grammar(text: &[u8]) -> bool {
    behind_group(text, 64).is_some_and(|rest| rest.is_empty())
}

/// Whether a text is "the start of any text of the grammar". If it is, then of one that goes on in the shortest way: it stands before an R, or
/// before the parenthesis behind one, or neither; and then closes every group that is open, for which there is one number.
fn is_start(text: &[u8]) -> bool {
    let count = |text: &[u8], byte| text.iter().filter(|other| **other == byte).count();
    ["", "(", "R("].iter().any(|more| {
        let mut whole = [text, more.as_bytes()].concat();
        let closed = count(&whole, b')');
        let open = count(&whole, b'(').saturating_sub(closed);
        whole.resize(whole.len() + open, b')');
        in_grammar(&whole)
    })
}

/// "the place of the first byte with which the text stops being the start of any text of the grammar, or the text's length if it ends early".
/// The beginning of a start is a start, so the first beginning that is none is found by halving.
fn fault(text: &[u8]) -> usize {
    let (mut starts, mut stops) = (0, text.len() + 1);
    while stops - starts > 1 {
        let length = (starts + stops) / 2;
        if is_start(&text[..length]) {
            starts = length;
        } else {
            stops = length;
        }
    }
    starts
}

/// A router whose group is open: its bits, and the children of each kind that it has.
struct Router {
    bits: Bits,
    routers: usize,
    hosts: usize,
}

impl Router {
    fn new(bits: Bits) -> Router {
        Router { bits, routers: 0, hosts: 0 }
    }

    /// "own address, then as many ones as the old count of that kind, then 0 for a router or 1 for a host"
    fn child(&mut self, kind: Kind) -> Bits {
        let count = match kind {
            Kind::Router => &mut self.routers,
            Kind::Host => &mut self.hosts,
        };
        let bits = self.bits.iter().copied().chain(step_bits((kind, *count))).collect();
        *count += 1;
        bits
    }
}

/// "The outermost R is the root." "Items get addresses left to right as they are met in the text, a router before what its group holds." Here an
/// address may have more than 64 bits.
fn addresses(text: &[u8]) -> Vec<Bits> {
    let mut given = Vec::new();
    let mut open: Vec<Router> = Vec::new();
    for byte in text {
        let bits = match (byte, open.last_mut()) {
            (b'R', None) => vec![true],
            (b'R', Some(router)) => router.child(Kind::Router),
            (b'H', Some(router)) => router.child(Kind::Host),
            (b')', Some(_)) => {
                open.pop();
                continue;
            }
            _ => continue,
        };
        if *byte == b'R' {
            open.push(Router::new(bits.clone()));
        }
        given.push(bits);
    }
    given
}

/// Each R and each H of a text in the grammar is one.
fn nodes(text: &[u8]) -> usize {
    text.iter().filter(|byte| b"RH".contains(byte)).count()
}

/// "Text over 4,096 bytes: 14. Then a text outside the grammar ..: 13 .. Then over 512 nodes, the root counted: 14. Then an address too long: 3.
/// Then no room: 10." Of the numbers, 32,768 and 4,096 since request Six.
pub fn read(text: &[u8], words: &mut [u64]) -> Plan {
    let refused = |refusal, place| Plan { nodes: 0, place, refusal };
    if text.len() > 32_768 {
        return refused(14, 0);
    }
    if !in_grammar(text) {
        return refused(13, fault(text));
    }
    if nodes(text) > 4096 {
        return refused(14, 0);
    }
    let addresses = addresses(text);
    if addresses.iter().any(|bits| bits.len() > 64) {
        return refused(3, 0);
    }
    if words.len() < addresses.len() {
        return refused(10, 0);
    }
    for (word, bits) in words.iter_mut().zip(&addresses) {
        *word = number(bits);
    }
    Plan { nodes: addresses.len(), place: 0, refusal: 0 }
}
