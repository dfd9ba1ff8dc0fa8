//! The reader of plans beside the specification: every text of up to eight bytes over `R H ( ) x`, and random ones, right and damaged, about
//! every limit.
use crate::document::plan;
use crate::{Random, Seen, MILLION};
use pasa::sys;

const LETTERS: [u8; 5] = *b"RH()x";

/// No letters of a plan: what a file may have at its end, small letters, other brackets, and letters with another bit.
const ALIKE: [u8; 12] = *b"\n\r \0rh[]SI\xD2\xC8";

/// The room for words, more than any plan has nodes; and what they hold before.
const WORDS: [u64; 4104] = [0x5555_5555_5555_5555; 4104];

/// Both sides of each limit, as it was before request Six and as it is.
const ABOUT_NODES: [usize; 6] = [511, 512, 513, 4095, 4096, 4097];
const ABOUT_BYTES: [usize; 6] = [4095, 4096, 4097, 32_767, 32_768, 32_769];

/// How often each refusal was the answer, and how often 14 was for bytes and how often for nodes. Of the plans that were read or refused with 14 for
/// their nodes, how many had each number of nodes about a limit; and how many texts had each number of bytes about one.
#[derive(Default)]
struct Met {
    seen: Seen,
    bytes: usize,
    nodes: usize,
    about_nodes: [usize; 6],
    about_bytes: [usize; 6],
}

/// One more of this number, if it is among those that are counted.
fn count(number: usize, about: &[usize; 6], times: &mut [usize; 6]) {
    if let Some(at) = about.iter().position(|other| *other == number) {
        times[at] += 1;
    }
}

impl Met {
    fn and(self, other: Met) -> Met {
        let add = |one: [usize; 6], other: [usize; 6]| std::array::from_fn(|at| one[at] + other[at]);
        Met {
            seen: self.seen.and(other.seen),
            bytes: self.bytes + other.bytes,
            nodes: self.nodes + other.nodes,
            about_nodes: add(self.about_nodes, other.about_nodes),
            about_bytes: add(self.about_bytes, other.about_bytes),
        }
    }

    /// A text of so many bytes and, if it is a plan, so many nodes has got this refusal.
    fn add(&mut self, refusal: u8, bytes: usize, nodes: usize) {
        self.seen.add(refusal);
        let for_bytes = refusal == 14 && bytes > 32_768;
        let for_nodes = refusal == 14 && !for_bytes;
        self.bytes += usize::from(for_bytes);
        self.nodes += usize::from(for_nodes);
        count(bytes, &ABOUT_BYTES, &mut self.about_bytes);
        if refusal == 0 || for_nodes {
            count(nodes, &ABOUT_NODES, &mut self.about_nodes);
        }
    }
}

fn nodes(text: &[u8]) -> usize {
    text.iter().filter(|byte| b"RH".contains(byte)).count()
}

fn shown(text: &[u8]) -> String {
    String::from_utf8_lossy(text).escape_debug().to_string()
}

fn read(text: &[u8], room: usize, met: &mut Met) {
    let (mut got_words, mut expected_words) = (WORDS, WORDS);
    let got = unsafe { sys::pasa_plan_read(text.as_ptr(), text.len(), got_words.as_mut_ptr(), room) };
    let expected = plan::read(text, &mut expected_words[..room]);
    assert_eq!(got, expected, "reading {} into {room} words", shown(text));
    assert!(got_words == expected_words, "reading {} into {room} words: {got_words:x?}", shown(text));
    met.add(got.refusal, text.len(), nodes(text));
}

/// Every text of so many bytes or fewer over the letters, that begins with this one. The room goes from none to one more than there are nodes.
fn every(text: &mut Vec<u8>, more: usize, met: &mut Met) {
    read(text, (nodes(text) + 1).saturating_sub(text.len() % 3), met);
    if more > 0 {
        for letter in LETTERS {
            text.push(letter);
            every(text, more - 1, met);
            text.pop();
        }
    }
}

fn every_short_text() -> Met {
    let mut met = Met::default();
    every(&mut Vec::new(), 8, &mut met);
    assert_eq!(met.seen.inputs(), 488_281);
    met
}

impl Random {
    /// One of the numbers about this one.
    fn about(&mut self, number: usize) -> usize {
        (number + self.below(5)).saturating_sub(2)
    }

    /// A number that is small as often as it is large, at most about 4,000.
    fn spread(&mut self) -> usize {
        let bits = self.below(12);
        self.below(2 << bits)
    }

    /// A right plan of so many nodes: each hangs on a router that is there already, on the last one so often out of sixteen.
    fn hung(&mut self, nodes: usize) -> Vec<u8> {
        let (routers, deep) = (1 + self.below(15), self.below(17));
        let mut groups: Vec<Vec<Option<usize>>> = vec![Vec::new()];
        for _ in 1..nodes {
            let last = groups.len() - 1;
            let on = if self.below(16) < deep { last } else { self.below(groups.len()) };
            if self.below(16) < routers {
                groups[on].push(Some(last + 1));
                groups.push(Vec::new());
            } else {
                groups[on].push(None);
            }
        }
        let mut text = Vec::new();
        put_group(&groups, 0, &mut text);
        text
    }

    /// A plan of a chain of groups with a few items in each: about the limit of groups, or about that of an address's bits.
    fn chain(&mut self) -> Vec<u8> {
        let depth = if self.below(2) == 0 { self.about(64) } else { 1 + self.below(64) };
        let mut text = b"R(".repeat(depth);
        for _ in 0..self.below(3) {
            let at = 2 * (1 + self.below(depth));
            self.put_items(at, &mut text);
        }
        for _ in 0..depth {
            if self.below(32) == 0 {
                self.put_items(text.len(), &mut text);
            }
            text.push(b')');
        }
        text
    }

    /// A few items more at a place of a text.
    fn put_items(&mut self, at: usize, text: &mut Vec<u8>) {
        let item: &[u8] = [b"H".as_slice(), b"R()", b"R(H)"][self.below(3)];
        let items = item.repeat(self.below(4));
        text.splice(at..at, items);
    }

    /// A router in some groups with about as many children as its bits leave room for.
    fn wide(&mut self) -> Vec<u8> {
        let depth = 1 + self.below(8);
        let mut text = b"R(".repeat(depth);
        let (hosts, routers) = (self.about(64 - depth), self.about(64 - depth));
        match self.below(3) {
            0 => text.extend(b"H".repeat(hosts)),
            1 => text.extend(b"R()".repeat(routers)),
            _ => text.extend(b"R()H".repeat(hosts)),
        }
        text.extend(b")".repeat(depth));
        text
    }

    /// A text of about so many bytes, closed or not. With 32,768 no right text has few enough nodes.
    fn long(&mut self, bytes: usize) -> Vec<u8> {
        let length = self.about(bytes);
        let item: &[u8] = [b"H".as_slice(), b"R()", b"R(H)", b"R(", b"x"][self.below(5)];
        let mut text = b"R(".to_vec();
        while text.len() + item.len() < length {
            text.extend_from_slice(item);
        }
        text.resize(length, *b")H".get(self.below(2)).unwrap());
        text
    }

    /// A right plan, or one about a limit.
    fn plan(&mut self) -> Vec<u8> {
        let size = self.spread();
        match self.below(512) {
            0..=3 => self.long(32_768),
            4 => self.long(4096),
            5..=9 => {
                let nodes = self.about(4096);
                self.hung(nodes)
            }
            10..=11 => {
                let nodes = self.about(512);
                self.hung(nodes)
            }
            12..=31 => self.wide(),
            32..=63 => self.chain(),
            64..=79 => self.hung(size),
            _ => self.hung(size % 24),
        }
    }

    /// A letter of a plan, one that is much like those, or any octet.
    fn letter(&mut self) -> u8 {
        match self.below(16) {
            0 => self.octet(),
            1..=4 => ALIKE[self.below(ALIKE.len())],
            _ => LETTERS[self.below(LETTERS.len())],
        }
    }

    /// The text with one byte changed, removed, inserted or doubled, or cut off; as often as not as it is.
    fn damaged(&mut self, mut text: Vec<u8>) -> Vec<u8> {
        let at = self.below(text.len() + 1);
        match self.below(10) {
            0 if at < text.len() => text[at] = self.letter(),
            1 if at < text.len() => drop(text.remove(at)),
            2 => text.insert(at, self.letter()),
            3 if at < text.len() => text.insert(at, text[at]),
            4 => text.truncate(at),
            _ => (),
        }
        text
    }

    /// Room for the nodes of a text and none to spare, or about that, or for any number of words.
    fn room(&mut self, text: &[u8]) -> usize {
        let room = match self.below(8) {
            0 => self.below(WORDS.len() + 1),
            1 => 0,
            2 => WORDS.len(),
            3..=5 => self.about(nodes(text)),
            _ => nodes(text),
        };
        room.min(WORDS.len())
    }
}

/// The text of the groups' first, each a list of its items: a host, or the number of another group.
fn put_group(groups: &[Vec<Option<usize>>], group: usize, text: &mut Vec<u8>) {
    text.extend_from_slice(b"R(");
    for item in &groups[group] {
        match item {
            Some(inner) => put_group(groups, *inner, text),
            None => text.push(b'H'),
        }
    }
    text.push(b')');
}

fn random_texts() -> Met {
    let mut met = Met::default();
    let random = &mut Random(12);
    for _ in 0..MILLION * 52 / 100 {
        let right = random.plan();
        let text = random.damaged(right);
        let room = random.room(&text);
        read(&text, room, &mut met);
    }
    met
}

/// On both cores, as the paths are.
#[test]
fn plans() {
    let every = std::thread::spawn(every_short_text);
    let random = random_texts();
    let met = every.join().expect("a short text differs").and(random);
    met.seen.often(&[0, 3, 10, 13, 14]);
    for (what, times) in [("bytes", met.bytes), ("nodes", met.nodes)] {
        assert!(times >= 1000, "refusal 14 for {what} was the answer {times} times: the inputs are too much alike");
    }
    for (what, about, times) in [("nodes", ABOUT_NODES, met.about_nodes), ("bytes", ABOUT_BYTES, met.about_bytes)] {
        for (number, times) in about.iter().zip(times) {
            assert!(times >= 100, "{number} {what} were met {times} times: the inputs are too much alike");
        }
        println!("{what} {about:?} met {times:?} times");
    }
    println!("refusal 14 for bytes {}, for nodes {}", met.bytes, met.nodes);
}
