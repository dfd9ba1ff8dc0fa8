//! The journal beside the specification: every length at which a block can be cut off, and random journals, right and damaged, about every limit.
//! Each is recovered from, written to, and asked for a record.
use crate::document::{
    self,
    journal::{self, Fault},
};
use crate::{Random, Seen, MILLION};
use pasa::sys;

/// The words that recovery wants, which are the most nodes of a hall too; and the room for words, more than that.
const NODES: usize = 4096;
const ROOM: usize = NODES + 88;

/// The numbers of nodes about the limit, as it was before request Six and as it is.
const ABOUT: [usize; 5] = [511, 512, 513, 4095, 4096];

/// How often each refusal was the answer of recovery and of the writer, and how often each fault was the first; how many halls were recovered with
/// each number of nodes about the limit; and how many records were not found and found.
#[derive(Default)]
struct Met {
    recovered: Seen,
    written: Seen,
    faults: [usize; 4],
    about: [usize; 5],
    records: [usize; 2],
}

fn add<const N: usize>(one: [usize; N], other: [usize; N]) -> [usize; N] {
    std::array::from_fn(|at| one[at] + other[at])
}

impl Met {
    fn and(self, other: Met) -> Met {
        Met {
            recovered: self.recovered.and(other.recovered),
            written: self.written.and(other.written),
            faults: add(self.faults, other.faults),
            about: add(self.about, other.about),
            records: add(self.records, other.records),
        }
    }
}

/// A hall as it grows: its nodes with their counts of routers and hosts, and the addresses in the order given.
struct Growing {
    nodes: Vec<(u64, [u32; 2])>,
}

impl Growing {
    fn new() -> Growing {
        Growing { nodes: vec![(1, [0, 0])] }
    }

    fn addresses(&self) -> Vec<u64> {
        self.nodes.iter().map(|node| node.0).collect()
    }

    /// The next child of a node, a router or a host, if it has one.
    fn next(&self, at: usize, host: usize) -> Option<u64> {
        let (address, counts) = self.nodes[at];
        let is_host = address > 1 && address % 2 == 1;
        let has_room = address.leading_zeros() > counts[host];
        (!is_host && has_room).then(|| (((address + 1) << counts[host]) - 1) << 1 | host as u64)
    }

    /// Gives a child of some node, of those that were given last so often out of eight.
    fn give(&mut self, random: &mut Random, late: usize) -> u64 {
        loop {
            let among = if random.below(8) < late { self.nodes.len().min(4) } else { self.nodes.len() };
            let at = self.nodes.len() - 1 - random.below(among);
            let host = random.below(2);
            if let Some(child) = self.next(at, host) {
                self.nodes[at].1[host] += 1;
                self.nodes.push((child, [0, 0]));
                return child;
            }
        }
    }

    fn give_many(&mut self, random: &mut Random, count: usize) -> Vec<u64> {
        let late = random.below(8);
        (0..count).map(|_| self.give(random, late)).collect()
    }
}

/// A journal, the hall that it was made from, and a block for it.
struct Made {
    journal: Vec<u8>,
    hall: Growing,
    block: Vec<u64>,
}

const ERASED: [u8; 512] = [0xFF; 512];

/// A slot made right again, where only its CRC and its end are wrong.
fn right_again(slot: &mut [u8]) {
    let crc = journal::crc(&slot[..509]).to_be_bytes();
    slot[509..511].copy_from_slice(&crc);
    slot[511] = 0xA5;
}

impl Random {
    /// The beginning of a block, or any bytes, with 0xFF at its end.
    fn torn(&mut self) -> Vec<u8> {
        let mut slot = match self.below(4) {
            0 => self.octets(512),
            1 => ERASED.to_vec(),
            2 => journal::block(&[0b10]),
            _ => journal::block(&[self.number(), self.number()]),
        };
        let end = self.below(512);
        slot[end..].fill(0xFF);
        slot[0] = 0x50;
        slot
    }

    /// How many addresses a block has: mostly few.
    fn count(&mut self) -> usize {
        match self.below(8) {
            0 => 1 + self.below(63),
            1 => 63,
            _ => 1 + self.below(6),
        }
    }

    /// A right journal of so many blocks, torn slots among them, and with erased slots behind them.
    fn journal_of(&mut self, blocks: usize, hall: &mut Growing, count: impl Fn(&mut Random) -> usize) -> Vec<u8> {
        let mut journal = Vec::new();
        for _ in 0..blocks {
            let count = count(self);
            journal.extend(journal::block(&hall.give_many(self, count)));
            if self.below(6) == 0 {
                journal.extend(self.torn());
            }
        }
        let erased = if journal.is_empty() { 1 + self.below(3) } else { self.below(3) };
        journal.extend(ERASED.repeat(erased));
        journal
    }

    /// A right journal: small, with about as many nodes as there may be, or more, or with about as many slots.
    fn right_journal(&mut self) -> Made {
        let mut hall = Growing::new();
        let journal = match self.below(5120) {
            0..=15 => {
                let journal = self.journal_of(8, &mut hall, |_| 63);
                let nodes = 511 + self.below(5);
                self.up_to(nodes, journal, &mut hall)
            }
            16..=19 => {
                let journal = self.journal_of(100, &mut hall, |random| 4 + random.below(2));
                let nodes = 511 + self.below(5);
                self.up_to(nodes, journal, &mut hall)
            }
            20..=27 => {
                let mut journal = self.journal_of(120, &mut hall, |_| 1);
                journal.truncate(512 * (126 + self.below(4)));
                journal
            }
            28..=39 => {
                let journal = self.journal_of(64, &mut hall, |_| 63);
                let nodes = self.about_most_nodes();
                self.up_to(nodes, journal, &mut hall)
            }
            40..=43 => {
                let journal = self.journal_of(100, &mut hall, |random| 39 + random.below(3));
                let nodes = self.about_most_nodes();
                self.up_to(nodes, journal, &mut hall)
            }
            // as many full blocks as there are slots
            44..=45 => {
                let mut journal = self.journal_of(120, &mut hall, |_| 63);
                journal.truncate(512 * 128);
                journal
            }
            _ => {
                let blocks = self.below(3);
                self.journal_of(blocks, &mut hall, Random::count)
            }
        };
        let block = self.block(&mut hall);
        Made { journal, hall, block }
    }

    /// One fewer than the most nodes, as many, or more: one too many as often as not.
    fn about_most_nodes(&mut self) -> usize {
        NODES + [0, 1, 2, 2, 2, 2, 3, 4][self.below(8)] - 1
    }

    /// A journal with more blocks behind its own, till it has so many nodes, and mostly an erased slot behind them.
    fn up_to(&mut self, nodes: usize, mut journal: Vec<u8>, hall: &mut Growing) -> Vec<u8> {
        let end = journal.chunks(512).position(|slot| slot == ERASED).unwrap_or(journal.len() / 512);
        journal.truncate(512 * end);
        while hall.nodes.len() < nodes {
            let more = (nodes - hall.nodes.len()).min(63);
            journal.extend(journal::block(&hall.give_many(self, more)));
        }
        if self.below(4) > 0 {
            journal.extend(ERASED);
        }
        journal
    }

    /// A block for a hall: mostly right.
    fn block(&mut self, hall: &mut Growing) -> Vec<u64> {
        let count = match self.below(32) {
            0 => 0,
            1 => 64 + self.below(3),
            _ => self.count(),
        };
        let mut block = hall.give_many(self, count);
        if count > 0 && self.below(4) == 0 {
            let at = self.below(count);
            block[at] = self.wrong_address(block[at], hall);
        }
        block
    }

    /// Another address in the place of one: zero, the root, one that is known, one beside it.
    fn wrong_address(&mut self, address: u64, hall: &Growing) -> u64 {
        match self.below(6) {
            0 => 0,
            1 => 1,
            2 => hall.nodes[self.below(hall.nodes.len())].0,
            3 => address.wrapping_shl(1) | self.below(2) as u64,
            4 => self.number(),
            _ => self.beside(address),
        }
    }

    /// Another address in the place of one of the last block's.
    fn damage_last(&mut self, Made { journal, hall, .. }: &mut Made) {
        let slot = journal.chunks_mut(512).rfind(|slot| slot[511] == 0xA5).expect("a journal with blocks");
        let at = 2 + 8 * self.below(usize::from(slot[1]));
        let address = u64::from_be_bytes(slot[at..at + 8].try_into().unwrap());
        slot[at..at + 8].copy_from_slice(&self.wrong_address(address, hall).to_be_bytes());
        right_again(slot);
    }

    /// The journal damaged by a bit, a byte, a slot or slots that are moved; as often as not as it is.
    fn damage(&mut self, Made { journal, hall, .. }: &mut Made) {
        let slots = journal.len() / 512;
        let slot = self.below(slots);
        let place = 512 * slot + self.below(512);
        let (begin, end) = (512 * slot, 512 * slot + 512);
        match self.below(24) {
            0 => journal[place] ^= 1 << self.below(8),
            1 => journal[place] = self.octet(),
            2 => journal[end - 1] = [0xFF, 0xA5, 0x00, self.octet()][self.below(4)],
            // a block with one byte changed, and right again
            3 if journal[end - 1] == 0xA5 => {
                journal[place] = self.octet();
                right_again(&mut journal[begin..end]);
            }
            4 if journal[end - 1] == 0xA5 => {
                journal[begin + 1] = [0, 1, 62, 63, 64, 255, self.octet()][self.below(7)];
                right_again(&mut journal[begin..end]);
            }
            // a block with one address changed
            5 if journal[end - 1] == 0xA5 => {
                let at = begin + 2 + 8 * self.below(usize::from(journal[begin + 1]).clamp(1, 63));
                let address = u64::from_be_bytes(journal[at..at + 8].try_into().unwrap());
                let other = self.wrong_address(address, hall);
                journal[at..at + 8].copy_from_slice(&other.to_be_bytes());
                right_again(&mut journal[begin..end]);
            }
            6 => journal[begin..end].fill([0xFF, 0x00, self.octet()][self.below(3)]),
            7 => {
                let other = 512 * self.below(slots);
                journal.copy_within(other..other + 512, begin);
            }
            8 => journal.rotate_left(512 * self.below(slots)),
            9 => journal.rotate_left(self.below(512)),
            10 => journal[begin..end].copy_from_slice(&self.torn()),
            11 => journal.truncate(512 * (slot + 1)),
            // a block of no addresses, right in all else
            13 => journal[begin..end].copy_from_slice(&journal::block(&[])),
            // another length
            12 => match self.below(4) {
                0 => journal.truncate(place),
                1 => journal.push(self.octet()),
                2 => journal.clear(),
                _ => journal.resize(512 * (127 + self.below(4)), 0xFF),
            },
            _ => (),
        }
    }
}

/// The words of which some are lent, with addresses of this hall in them that nobody must take for known.
fn lent(hall: &Growing) -> [u64; ROOM] {
    let mut words = [1; ROOM];
    for (word, node) in words.iter_mut().zip(&hall.nodes) {
        *word = node.0;
    }
    words
}

/// Into so many of the words; the others stay.
fn recover(journal: &[u8], words: &[u64; ROOM], room: usize, met: &mut Met) -> [u64; ROOM] {
    let (mut got_words, mut expected_words) = (*words, *words);
    let before = journal.to_vec();
    let got = unsafe { sys::pasa_journal_recover(journal.as_ptr(), journal.len(), got_words.as_mut_ptr(), room) };
    let expected = journal::recover(journal, &mut expected_words[..room]);
    assert_eq!(got, expected, "recovering into {room} words: {}", shown(journal));
    assert!(got_words == expected_words, "recovering into {room} words: {}: {got_words:x?}", shown(journal));
    assert!(journal == before, "recovery changes the journal {}", shown(journal));
    met.recovered.add(got.refusal);
    if let Some(at) = ABOUT.iter().position(|nodes| *nodes == got.nodes) {
        met.about[at] += 1;
    }
    if matches!(got.refusal, 14 | 17) {
        let fault = journal::fault(journal).unwrap();
        met.faults[[Fault::Place, Fault::Form, Fault::NoNextChild, Fault::TooMany].iter().position(|other| *other == fault).unwrap()] += 1;
    }
    got_words
}

fn write(journal: &[u8], block: &[u64], met: &mut Met) {
    let (mut got_journal, mut expected_journal) = (journal.to_vec(), journal.to_vec());
    let got = unsafe { sys::pasa_journal_write(got_journal.as_mut_ptr(), got_journal.len(), block.as_ptr(), block.len()) };
    let expected = journal::write(&mut expected_journal, block);
    assert_eq!(got, expected, "writing {block:x?} to {}", shown(journal));
    assert!(got_journal == expected_journal, "writing {block:x?} to {} gives {}", shown(journal), shown(&got_journal));
    met.written.add(got.refusal);
}

fn record(words: &[u64], address: u64, met: &mut Met) {
    let got = unsafe { sys::pasa_journal_record(words.as_ptr(), words.len(), address) };
    assert_eq!(got, journal::record(words, address), "the record of {address:#b} among {words:x?}");
    met.records[usize::from(got.found)] += 1;
}

/// The written slots of a journal in hexadecimal, a line each.
fn shown(journal: &[u8]) -> String {
    let slot = |slot: &[u8]| if slot == ERASED { "erased".to_string() } else { crate::shown(slot) };
    let slots: Vec<String> = journal.chunks(512).map(slot).collect();
    format!("{} bytes\n{}", journal.len(), slots.join("\n"))
}

/// "If power fails after any number of bytes of one block, all other slots kept": each number of bytes of many blocks, behind a few others, and the
/// same block again afterwards.
fn every_cut() -> Met {
    let mut met = Met::default();
    let random = &mut Random(13);
    for _ in 0..1030 {
        let mut hall = Growing::new();
        let blocks = random.below(2) + random.below(9) / 8;
        let mut before = random.journal_of(blocks, &mut hall, Random::count);
        let count = random.count();
        let known = hall.addresses();
        let block = hall.give_many(random, count);
        let end = before.chunks(512).position(|slot| slot == ERASED).unwrap_or(before.len() / 512);
        before.truncate(512 * end);
        before.extend(ERASED.repeat(1 + random.below(2)));
        let whole = journal::block(&block);
        let (words, room) = (lent(&hall), NODES + random.below(3));
        for cut in 0..=512 {
            let mut journal = before.clone();
            journal[512 * end..512 * end + cut].copy_from_slice(&whole[..cut]);
            let got = recover(&journal, &words, room, &mut met);
            // said once more without the second implementation
            let nodes = known.len() + if cut < 512 { 0 } else { block.len() };
            assert!(got[..nodes] == hall.addresses()[..nodes] && got[nodes] == 0, "cut off at {cut}: {}", shown(&journal));
            write(&journal, &block, &mut met);
            record(&got[..nodes + 1], hall.nodes[random.below(hall.nodes.len())].0, &mut met);
        }
    }
    met
}

fn random_journals(seed: u64, count: usize) -> Met {
    let mut met = Met::default();
    let random = &mut Random(seed);
    for _ in 0..count {
        let mut made = random.right_journal();
        // a large hall takes its time, so fewer of them are damaged, and as often in the last block as anywhere
        let is_large = made.hall.nodes.len() >= NODES - 1;
        match if is_large { random.below(8) } else { 0 } {
            0 => random.damage(&mut made),
            1 => random.damage_last(&mut made),
            _ => (),
        }
        let room = match random.below(32) {
            0 => random.below(NODES),
            1 => NODES - 1,
            2 => ROOM,
            _ => NODES,
        };
        let words = recover(&made.journal, &lent(&made.hall), room, &mut met);
        write(&made.journal, &made.block, &mut met);
        let among = if is_large { NODES } else { 24 };
        let address = match random.below(4) {
            0 => random.number(),
            1 if is_large => document::parent(&document::bits(words[NODES - 1])),
            _ => words[random.below(among)],
        };
        record(&words[..among], address, &mut met);
    }
    met
}

/// On both cores, as the paths are.
#[test]
fn journals() {
    let others = std::thread::spawn(|| every_cut().and(random_journals(14, MILLION * 18 / 100)));
    let random = random_journals(17, MILLION * 30 / 100);
    let met = others.join().expect("a journal differs").and(random);
    met.recovered.often(&[0, 10, 12, 14, 17]);
    met.written.often(&[0, 10, 12, 14, 17]);
    for (what, times) in ["a slot out of place", "no right block", "no next child", "a node too many"].iter().zip(met.faults) {
        assert!(times >= 1000, "{what} was the first fault {times} times: the journals are too much alike");
    }
    for (nodes, times) in ABOUT.iter().zip(met.about) {
        assert!(times >= 100, "halls of {nodes} nodes were recovered {times} times: the journals are too much alike");
    }
    println!("first faults {:?}, halls of {ABOUT:?} nodes {:?}", met.faults, met.about);
    println!("records not found and found {:?}", met.records);
}

/// Of any words: zeros, repeats and numbers that belong to no hall among them.
#[test]
fn records_among_any_words() {
    let mut met = Met::default();
    let random = &mut Random(15);
    for _ in 0..MILLION {
        let address = random.number() >> random.below(60);
        let mut words: Vec<u64> = (0..random.below(12)).map(|_| random.beside(address)).collect();
        if random.below(64) == 0 {
            let (word, times) = (random.beside(address), 250 + random.below(12));
            words.extend(std::iter::repeat(word).take(times));
        }
        if random.below(2) == 0 {
            words.push(address);
        }
        record(&words, address, &mut met);
    }
    assert!(met.records.iter().all(|times| *times >= 1000), "{:?}", met.records);
}

#[test]
fn crcs() {
    let random = &mut Random(16);
    for i in 0..MILLION + 65_536 {
        let octets = match i {
            0..=65_535 => (i as u16).to_be_bytes().to_vec(),
            _ => {
                let length = if i % 64 == 0 { 480 + random.below(64) } else { random.below(24) };
                random.octets(length)
            }
        };
        let got = unsafe { sys::pasa_crc(octets.as_ptr(), octets.len()) };
        assert_eq!(got, journal::crc(&octets), "the CRC of {}", crate::shown(&octets));
    }
}
