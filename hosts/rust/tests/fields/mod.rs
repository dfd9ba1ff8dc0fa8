//! The older address fields beside the specification: numbers on both sides of every limit into every room, every value of the octets that decide,
//! every beginning of right fields and every change of one octet in them, and random ones. What is written is read again, and what is read is written
//! again.
use crate::document::nsa;
use crate::{shown, Random, Seen, MILLION};
use pasa::sys::{self, Nsa, Written};
use std::collections::BTreeSet;

/// Both sides of every limit: of a field's forms, of a payload length, and of the octets of a number.
const ABOUT: [u64; 27] = [
    0,
    1,
    251,
    252,
    253,
    254,
    255,
    256,
    507,
    508,
    65_535,
    65_536,
    65_787,
    65_788,
    (1 << 24) - 1,
    1 << 24,
    (1 << 32) - 1,
    1 << 32,
    (1 << 32) + 1,
    (1 << 40) - 1,
    1 << 40,
    (1 << 48) - 1,
    1 << 48,
    (1 << 56) - 1,
    1 << 56,
    1 << 63,
    u64::MAX,
];

/// The octets that each field may take.
const SIZES: [&[usize]; 3] = [&[1, 2, 3], &[1, 3, 5, 7, 8, 9, 10], &[1, 3, 5, 7, 8, 9, 10]];

/// The most octets of all three.
const MOST: usize = 23;

/// The most octets that are lent, and how many stand before and behind them, which nobody may write to.
const ROOM: usize = 30;
const AROUND: usize = 8;

/// How often each refusal was the reader's answer; which field it was for; and how many octets each field took where there was none.
#[derive(Default)]
struct Met {
    seen: Seen,
    faults: [Seen; 3],
    sizes: [[usize; 11]; 3],
}

impl Met {
    fn add(&mut self, read: nsa::ReadFields) {
        match read {
            Err((field, refusal)) => self.faults[field].add(refusal),
            Ok(fields) => {
                for (sizes, (_, size)) in self.sizes.iter_mut().zip(fields) {
                    sizes[size] += 1;
                }
            }
        }
    }

    /// Each field was the faulty one often, for each reason that it can have.
    fn every_fault(&self) {
        self.faults[0].met(&[4, 6]);
        self.faults[1].met(&[4, 6, 9]);
        self.faults[2].met(&[4, 6, 9]);
    }

    /// Each field took each number of octets that it may take often, and no other.
    fn every_size(&self) {
        for (field, (sizes, right)) in self.sizes.iter().zip(SIZES).enumerate() {
            for (size, times) in sizes.iter().enumerate() {
                if right.contains(&size) {
                    assert!(*times >= 1000, "field {field} took {size} octets {times} times: the inputs are too much alike");
                } else {
                    assert_eq!(*times, 0, "field {field} took {size} octets");
                }
            }
        }
        println!("octets taken by each field {:?}", self.sizes);
    }
}

fn read(octets: &[u8], met: &mut Met) -> Nsa {
    let got = unsafe { sys::pasa_nsa_read(octets.as_ptr(), octets.len()) };
    let read = nsa::read_fields(octets);
    assert_eq!(got, nsa::answer(read), "reading {}", shown(octets));
    met.seen.add(got.refusal);
    met.add(read);
    if got.refusal == 0 {
        write_again(got, octets);
    }
    got
}

/// "Whatever is accepted is what we would write": said once more without the second implementation.
fn write_again(got: Nsa, octets: &[u8]) {
    let mut out = [0; MOST];
    let written = unsafe { sys::pasa_nsa_write(got.length, got.source, got.destination, out.as_mut_ptr(), out.len()) };
    assert_eq!(written, Written { count: got.place, refusal: 0 }, "writing again {}", shown(octets));
    assert_eq!(out[..got.place], octets[..got.place], "writing again {}", shown(octets));
}

/// Into so many octets, which are filled with this one, as those around them are. What is written is read again, with the rest of the room behind it:
/// "and the reverse".
fn write([length, source, destination]: [u64; 3], room: usize, filled: u8, seen: &mut Seen, met: &mut Met) {
    let mut got_octets = [filled; AROUND + ROOM + AROUND];
    let mut expected_octets = got_octets;
    let got = unsafe { sys::pasa_nsa_write(length, source, destination, got_octets[AROUND..].as_mut_ptr(), room) };
    let expected = nsa::write(length, source, destination, &mut expected_octets[AROUND..AROUND + room]);
    let what = || format!("writing {length}, {source:#x} and {destination:#x} into {room} octets of {filled:02X}");
    assert_eq!(got, expected, "{}", what());
    assert_eq!(got_octets, expected_octets, "{}", what());
    seen.add(got.refusal);
    if got.refusal == 0 {
        let again = read(&got_octets[AROUND..AROUND + room], met);
        assert_eq!(again, Nsa { length, source, destination, place: got.count, refusal: 0 }, "{}", what());
    }
}

impl Random {
    /// One of the numbers about a limit.
    fn at_limit(&mut self) -> u64 {
        ABOUT[self.below(ABOUT.len())]
    }

    /// A payload length: of every size, about a limit, or any number.
    fn payload_length(&mut self) -> u64 {
        match self.below(8) {
            0 => self.at_limit(),
            1 => self.number(),
            2 | 3 => self.below(253) as u64,
            4 | 5 => 253 + self.below(255) as u64,
            _ => 508 + self.below(65_280) as u64,
        }
    }

    /// A source or a destination: mostly any number, zero among them.
    fn end(&mut self) -> u64 {
        if self.below(4) == 0 {
            self.at_limit()
        } else {
            self.number()
        }
    }

    /// Numbers that can be written.
    fn right_numbers(&mut self) -> [u64; 3] {
        [self.payload_length().min(65_787), self.end().max(1), self.end().max(1)]
    }

    /// An octet with which a longer form begins, or one about those that are a number by themselves.
    fn mark(&mut self) -> u8 {
        match self.below(8) {
            0 => 0,
            1 => 252,
            2 => 1 + self.below(10) as u8,
            3 => self.octet(),
            _ => 253 + self.below(3) as u8,
        }
    }

    /// What stands in the place of a field: one octet changed, some too few, zeros or any octets behind a mark, or any form of the number.
    fn wrong_field(&mut self, mut field: Vec<u8>, forms: &[Vec<u8>]) -> Vec<u8> {
        let (at, count) = (self.below(field.len()), self.below(10));
        match self.below(8) {
            0 => field[at] = self.octet(),
            1 => field.truncate(at),
            2 => field = [vec![self.mark()], vec![0; count]].concat(),
            3 => field = [vec![self.mark()], self.octets(count)].concat(),
            4 => field = [vec![255, count as u8], vec![0; count]].concat(),
            5 => field = [vec![255, count as u8], self.octets(count)].concat(),
            _ => field = forms[self.below(forms.len())].clone(),
        }
        field
    }

    /// Three fields, each of them right or wrong by itself, with something behind them or cut off; and how many are wrong.
    fn fields(&mut self) -> (Vec<u8>, usize) {
        let numbers = self.right_numbers();
        let mut fields = nsa::fields(numbers);
        let mut wrong = 0;
        for (place, (field, number)) in fields.iter_mut().zip(numbers).enumerate() {
            if self.below(4) == 0 {
                let forms: Vec<_> = if place == 0 { nsa::length_forms(number).collect() } else { nsa::address_forms(number).collect() };
                let other = self.wrong_field(field.clone(), &forms);
                wrong += usize::from(other != *field);
                *field = other;
            }
        }
        let mut octets = fields.concat();
        let behind = if self.below(64) == 0 { self.below(2000) } else { self.below(3) };
        octets.resize(octets.len() + behind, self.octet());
        if self.below(8) == 0 {
            octets.truncate(self.below(octets.len() + 1));
        }
        (octets, wrong)
    }
}

/// Every value of two octets in each place where they decide.
fn every_two_octets(met: &mut Met) {
    for two in 0..=u16::MAX {
        let [a, b] = two.to_be_bytes();
        read(&[a, b], met);
        read(&[a, b, 1, 1, 1], met);
        read(&[254, a, b, 1, 1], met);
        read(&[1, 253, a, b, 1], met);
        read(&[1, 1, 253, a, b], met);
        read(&[1, 254, a, b, 0, 0, 1], met);
        read(&[1, 255, a, b, 0, 0, 0, 0, 0, 0, 1, 1], met);
        read(&[1, 1, 255, a, b, 0, 0, 0, 0, 0, 0], met);
    }
}

/// Every beginning of right fields, with two octets behind them. Said once more without the second implementation: what ends early ends within a
/// field, which is 4, and all else is read.
fn every_beginning(random: &mut Random, met: &mut Met) {
    for _ in 0..20_000 {
        let numbers = random.right_numbers();
        let mut octets = nsa::fields(numbers).concat();
        let whole = octets.len();
        octets.extend(random.octets(2));
        for end in 0..=octets.len() {
            let got = read(&octets[..end], met);
            let expected = if end < whole { (4, [0; 3], 0) } else { (0, numbers, whole) };
            assert_eq!((got.refusal, [got.length, got.source, got.destination], got.place), expected, "reading {}", shown(&octets[..end]));
        }
    }
}

/// Every other octet in the place of each of right fields.
fn every_change(random: &mut Random, met: &mut Met) {
    for _ in 0..80 {
        let right = nsa::fields(random.right_numbers()).concat();
        for place in 0..right.len() {
            for more in 1..=255 {
                let mut octets = right.clone();
                octets[place] = right[place].wrapping_add(more);
                read(&octets, met);
            }
        }
    }
}

#[test]
fn nsa_reads() {
    let met = &mut Met::default();
    every_two_octets(met);
    assert_eq!(met.seen.inputs(), 8 * 65_536);
    let random = &mut Random(20);
    every_beginning(random, met);
    every_change(random, met);
    let mut several = 0;
    for _ in 0..MILLION / 2 {
        let (octets, wrong) = random.fields();
        several += usize::from(wrong > 1);
        read(&octets, met);
    }
    for _ in 0..MILLION / 4 {
        let octets: Vec<u8> = (0..random.below(26)).map(|_| random.mark()).collect();
        read(&octets, met);
    }
    assert!(several >= 1000, "{several} inputs have more than one wrong field");
    met.seen.often(&[0, 4, 6, 9]);
    met.every_fault();
    met.every_size();
}

/// Every three of the numbers about a limit, into every room.
fn every_limit(random: &mut Random, seen: &mut Seen, met: &mut Met) {
    for (length, source) in ABOUT.into_iter().flat_map(|length| ABOUT.map(|source| (length, source))) {
        for (destination, room) in ABOUT.into_iter().flat_map(|destination| (0..=ROOM).map(move |room| (destination, room))) {
            write([length, source, destination], room, random.octet(), seen, met);
        }
    }
}

/// Every number to above the largest payload length, in each field.
fn every_small_number(random: &mut Random, seen: &mut Seen, met: &mut Met) {
    for number in 0..=65_800 {
        for numbers in [[number, 1, 1], [1, number, 1], [1, 1, number]] {
            write(numbers, MOST, random.octet(), seen, met);
        }
    }
}

#[test]
fn nsa_writes() {
    let (seen, met) = (&mut Seen::default(), &mut Met::default());
    let random = &mut Random(21);
    every_limit(random, seen, met);
    every_small_number(random, seen, met);
    assert_eq!(seen.inputs(), 27 * 27 * 27 * 31 + 3 * 65_801);
    for _ in 0..MILLION / 2 {
        let numbers = [random.payload_length(), random.end(), random.end()];
        let room = if random.below(2) == 0 { ROOM } else { random.below(ROOM) };
        write(numbers, room, random.octet(), seen, met);
    }
    seen.often(&[0, 9, 10, 14]);
    met.seen.met(&[0]);
    met.every_size();
}

/// What the request says of an input by itself, and where two of its rules meet.
#[test]
fn nsa_refusals_by_hand() {
    let refusals: [(&[u8], u8); 35] = [
        // the payload length: missing octets, longer forms, and 255 with nothing behind it
        (&[], 4),
        (&[253], 4),
        (&[254], 4),
        (&[254, 0], 4),
        (&[253, 0], 6),
        (&[254, 0, 0], 6),
        (&[254, 0, 255], 6),
        (&[255], 6),
        (&[255, 0, 1, 1], 6),
        // it is finished before the source begins
        (&[253, 0, 0], 6),
        (&[254, 0, 255, 255, 9], 6),
        (&[254, 255, 255, 0], 9),
        // the source: one octet of zero, and longer zeros
        (&[0], 4),
        (&[0, 0], 9),
        (&[0, 253, 0], 4),
        (&[0, 253, 0, 0], 6),
        (&[0, 254, 0, 0, 0], 4),
        (&[0, 254, 0, 0, 0, 0], 6),
        // longer forms
        (&[0, 253, 0, 252], 6),
        (&[0, 253, 0, 253], 4),
        (&[0, 254, 0, 0, 255, 255], 6),
        (&[0, 254, 0, 1, 0, 0], 4),
        // 255: the length is judged before the octets are looked for, and these before their value
        (&[0, 255], 4),
        (&[0, 255, 0], 6),
        (&[0, 255, 1, 253], 6),
        (&[0, 255, 3, 1, 0, 0], 6),
        (&[0, 255, 4], 6),
        (&[0, 255, 9], 6),
        (&[0, 255, 255], 6),
        (&[0, 255, 5, 0], 4),
        (&[0, 255, 5, 0, 1, 2, 3, 4], 6),
        (&[0, 255, 8, 0, 0, 0, 0, 0, 0, 0, 0], 6),
        // the destination
        (&[0, 1], 4),
        (&[0, 1, 0], 9),
        (&[0, 1, 253, 0, 0], 6),
    ];
    for (octets, refusal) in refusals {
        assert_eq!(read(octets, &mut Met::default()).refusal, refusal, "reading {}", shown(octets));
    }
    // 14, then 9, then 10
    for (numbers, room, refusal) in [
        ([65_788, 0, 0], 0, 14),
        ([u64::MAX, 1, 1], 30, 14),
        ([65_787, 0, 1], 0, 9),
        ([65_787, 1, 0], 0, 9),
        ([65_787, 1, 1], 4, 10),
        ([65_787, 1, 1], 5, 0),
        ([0, 1, 1], 2, 10),
        ([0, 1, 1], 3, 0),
        ([65_787, u64::MAX, u64::MAX], 22, 10),
        ([65_787, u64::MAX, u64::MAX], 23, 0),
    ] {
        let seen = &mut Seen::default();
        write(numbers, room, 0x55, seen, &mut Met::default());
        assert_eq!(seen.0[refusal], 1, "writing {numbers:?} into {room} octets");
    }
}

/// "Only the shortest form is accepted: otherwise 6, so after 255 the length is 5 to 8 and its first octet isn't zero.": of the independent writer, which
/// lists the forms and takes the first of the shortest, and with which the archive is compared above.
#[test]
fn what_follows_from_the_shortest_form() {
    let mut lengths = BTreeSet::new();
    for number in ABOUT.into_iter().chain((0..64).flat_map(|bits| [1 << bits, u64::MAX >> bits])) {
        let [_, source, _] = nsa::fields([0, number, 1]);
        if source[0] == 255 {
            lengths.insert(source[1]);
            assert_ne!(source[2], 0, "the form of {number:#x}");
        }
    }
    assert_eq!(lengths, BTreeSet::from([5, 6, 7, 8]));
}
