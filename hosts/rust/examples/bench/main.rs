//! Times the proved functions beside the same functions written in Rust by hand (`simple.rs`), and the next hop beside a hash map and a
//! sorted table of 4,096 nodes; then plans, recovery, writing and records in halls of four sizes (`growth.rs`). One process, the same inputs for
//! both sides; what both answer is compared first.
//!
//! Each row is the least of many rounds over the inputs, the two sides taking turns, in nanoseconds for one input. `called` is the Rust
//! version behind a call that is not inlined, as every call of the archive is; `inlined` is the Rust version in the loop itself.
//!
//! Run it by `cargo run --release --offline --example bench`. With a name (`longest run`, `mixed`) it goes through these inputs once by each
//! side and times nothing: examples/bench/count has callgrind count what that takes.
mod growth;
mod simple;

use pasa::sys::{self, Block, Child, Hop, Limited, Listed, Node, Nsa, Plan, Read, Record, Recovered, Written};
use pasa::{Address, BLOCK_MOST, NODES, NSA_MOST, PLAN_NODES, SLOT, SLOTS};
use std::collections::HashMap;
use std::env;
use std::hint::black_box;
use std::time::Instant;

/// So many that the processor cannot learn the branches of one round by heart.
const INPUTS: usize = 65_536;
const HALL: usize = 4096;
/// The hall of a plan or a journal, where it is not said to be another.
const SMALL: usize = 512;
/// Each plan is long, so fewer are enough.
const PLANS: usize = 256;
/// And of journals, each of which is longer still.
const JOURNALS: usize = 8;
const OCTETS: usize = 509;
const ROUNDS: usize = 150;

struct Random(u64);

impl Random {
    fn next(&mut self) -> u64 {
        self.0 = self.0.wrapping_add(0x9E37_79B9_7F4A_7C15);
        let mut z = self.0;
        z = (z ^ (z >> 30)).wrapping_mul(0xBF58_476D_1CE4_E5B9);
        z = (z ^ (z >> 27)).wrapping_mul(0x94D0_49BB_1331_11EB);
        z ^ (z >> 31)
    }

    fn below(&mut self, n: u64) -> u64 {
        self.next() % n
    }

    /// An address of any length.
    fn address(&mut self) -> u64 {
        (self.next() | 1 << 63) >> self.below(64)
    }
}

// The same boundary as that of the archive.
#[inline(never)]
extern "C" fn called_router(node: Node) -> Child {
    simple::child(node, false)
}

#[inline(never)]
extern "C" fn called_host(node: Node) -> Child {
    simple::child(node, true)
}

#[inline(never)]
extern "C" fn called_limit_hosts(node: Node, limit: u64) -> Limited {
    simple::limited(node, true, limit)
}

#[inline(never)]
extern "C" fn called_next_hop(node: Node, destination: u64) -> Hop {
    simple::next_hop(node, destination)
}

#[inline(never)]
fn called_next_hops(node: Node, destinations: &[u64], nodes: &mut [u64], actions: &mut [u8], refusals: &mut [u8]) -> usize {
    simple::next_hops(node, destinations, nodes, actions, refusals)
}

#[inline(never)]
fn called_header_write(address: u64, out: &mut [u8]) -> Written {
    simple::header_write(address, out)
}

#[inline(never)]
fn called_header_read(packet: &[u8]) -> Read {
    simple::header_read(packet)
}

#[inline(never)]
fn called_nsa_write([length, source, destination]: [u64; 3], out: &mut [u8]) -> Written {
    simple::nsa_write(length, source, destination, out)
}

#[inline(never)]
fn called_nsa_read(octets: &[u8]) -> Nsa {
    simple::nsa_read(octets)
}

#[inline(never)]
fn called_path(first: u64, second: u64, words: &mut [u64]) -> Listed {
    simple::path(first, second, words)
}

#[inline(never)]
fn called_plan_read(text: &[u8], words: &mut [u64]) -> Plan {
    simple::plan_read(text, words)
}

#[inline(never)]
fn called_crc(octets: &[u8]) -> u16 {
    simple::crc(octets)
}

#[inline(never)]
fn called_recover(journal: &[u8], words: &mut [u64]) -> Recovered {
    simple::journal_recover(journal, words)
}

#[inline(never)]
fn called_recover_indexed(journal: &[u8], words: &mut [u64]) -> Recovered {
    simple::journal_recover_indexed(journal, words)
}

#[inline(never)]
fn called_write(journal: &mut [u8], addresses: &[u64]) -> Block {
    simple::journal_write(journal, addresses)
}

#[inline(never)]
fn called_record(words: &[u64], address: u64) -> Record {
    simple::journal_record(words, address)
}

fn router(node: Node) -> Child {
    unsafe { sys::pasa_child_router(node) }
}

fn host(node: Node) -> Child {
    unsafe { sys::pasa_child_host(node) }
}

fn limit_hosts(node: Node, limit: u64) -> Limited {
    unsafe { sys::pasa_limit_hosts(node, limit) }
}

fn next_hop(node: Node, destination: u64) -> Hop {
    unsafe { sys::pasa_next_hop(node, destination) }
}

fn header_write(address: u64, out: &mut [u8]) -> Written {
    unsafe { sys::pasa_header_write(address, out.as_mut_ptr(), out.len()) }
}

fn header_read(packet: &[u8]) -> Read {
    unsafe { sys::pasa_header_read(packet.as_ptr(), packet.len()) }
}

fn nsa_write([length, source, destination]: [u64; 3], out: &mut [u8]) -> Written {
    unsafe { sys::pasa_nsa_write(length, source, destination, out.as_mut_ptr(), out.len()) }
}

fn nsa_read(octets: &[u8]) -> Nsa {
    unsafe { sys::pasa_nsa_read(octets.as_ptr(), octets.len()) }
}

fn path(first: u64, second: u64, words: &mut [u64]) -> Listed {
    unsafe { sys::pasa_path(first, second, words.as_mut_ptr(), words.len()) }
}

fn plan_read(text: &[u8], words: &mut [u64]) -> Plan {
    unsafe { sys::pasa_plan_read(text.as_ptr(), text.len(), words.as_mut_ptr(), words.len()) }
}

fn crc(octets: &[u8]) -> u16 {
    unsafe { sys::pasa_crc(octets.as_ptr(), octets.len()) }
}

fn recover(journal: &[u8], words: &mut [u64]) -> Recovered {
    unsafe { sys::pasa_journal_recover(journal.as_ptr(), journal.len(), words.as_mut_ptr(), words.len()) }
}

fn write(journal: &mut [u8], addresses: &[u64]) -> Block {
    unsafe { sys::pasa_journal_write(journal.as_mut_ptr(), journal.len(), addresses.as_ptr(), addresses.len()) }
}

fn record(words: &[u64], address: u64) -> Record {
    unsafe { sys::pasa_journal_record(words.as_ptr(), words.len(), address) }
}

/// The least time of each side for one of the inputs, in nanoseconds.
fn times<const N: usize>(sides: [&mut dyn FnMut(); N]) -> [f64; N] {
    times_of(INPUTS, sides)
}

/// The same where each side goes through so many inputs.
fn times_of<const N: usize>(inputs: usize, mut sides: [&mut dyn FnMut(); N]) -> [f64; N] {
    let mut least = [f64::INFINITY; N];
    for _ in 0..ROUNDS {
        for (side, least) in sides.iter_mut().zip(&mut least) {
            let start = Instant::now();
            side();
            *least = least.min(start.elapsed().as_nanos() as f64 / inputs as f64);
        }
    }
    least
}

fn row(name: &str, [proved, called, inlined]: [f64; 3]) {
    println!("| {name} | {proved:.2} | {called:.2} | {:.2} | {inlined:.2} | {:.2} |", proved / called, proved / inlined);
}

/// Every input through one function, and what it answers kept from being thought away.
macro_rules! each {
    ($inputs:expr, |$input:pat_param| $call:expr) => {
        &mut || {
            for $input in $inputs.iter() {
                black_box(&$call);
            }
        }
    };
}
use each;

/// A tree of so many nodes, in the order given, with their records: each request goes to a node given earlier, the first ones more often.
fn hall(random: &mut Random, size: usize) -> Vec<Node> {
    let mut nodes = vec![unsafe { sys::pasa_fresh(Address::ROOT.number()) }];
    while nodes.len() < size {
        let at = random.below(nodes.len() as u64).min(random.below(nodes.len() as u64)) as usize;
        let answer = if random.below(2) == 0 { router(nodes[at]) } else { host(nodes[at]) };
        nodes[at] = answer.node;
        if answer.refusal == 0 {
            nodes.push(unsafe { sys::pasa_fresh(answer.child) });
        }
    }
    nodes
}

/// The text of a node, with all that is below it: the items of each, in the order given.
fn spell(items: &HashMap<u64, Vec<u64>>, address: u64, text: &mut Vec<u8>) {
    if Address::new(address).is_ok_and(Address::is_host) {
        return text.push(b'H');
    }
    text.extend_from_slice(b"R(");
    for item in items.get(&address).into_iter().flatten() {
        spell(items, *item, text);
    }
    text.push(b')');
}

/// The plan of a hall of so many nodes.
fn plan(random: &mut Random, size: usize) -> Vec<u8> {
    let mut items: HashMap<u64, Vec<u64>> = HashMap::new();
    for node in &hall(random, size)[1..] {
        items.entry(unsafe { sys::pasa_parent(node.address) }).or_default().push(node.address);
    }
    let mut text = Vec::new();
    spell(&items, Address::ROOT.number(), &mut text);
    text
}

/// A journal of 128 slots with the first so many addresses of a hall behind the root, in blocks of so many each.
fn journal(hall: &[Node], addresses: usize, each: usize) -> Vec<u8> {
    let mut journal = vec![0xFF; SLOTS * SLOT];
    let addresses: Vec<u64> = hall[1..=addresses].iter().map(|node| node.address).collect();
    for block in addresses.chunks(each.max(1)) {
        assert_eq!(write(&mut journal, block).refusal, 0);
    }
    journal
}

/// A row for recovery from journals that are made so from halls.
fn recovery_row(name: &str, journals: &[Vec<u8>], nodes: usize) {
    let (mut words, mut words2, mut words3) = ([0; NODES], [0; NODES], [0; NODES]);
    for journal in journals {
        let recovered = recover(journal, &mut words);
        assert_eq!(recovered, Recovered { nodes, refusal: 0 });
        assert_eq!((simple::journal_recover(journal, &mut words2), words2), (recovered, words));
    }
    row(
        name,
        times_of(
            journals.len(),
            [
                each!(journals, |journal| recover(journal, black_box(&mut words))),
                each!(journals, |journal| called_recover(journal, black_box(&mut words2))),
                each!(journals, |journal| simple::journal_recover(journal, black_box(&mut words3))),
            ],
        ),
    );
}

/// A writer of either side.
type Writer = fn(&mut [u8], &[u64]) -> Block;

/// The least time of each writer for one block more behind so many addresses in full blocks. What was written is erased again, which is among the
/// time.
fn writing_times<const N: usize>(halls: &[Vec<Node>], before: usize, more: usize, writers: [Writer; N]) -> [f64; N] {
    let made =
        |hall: &Vec<Node>| (journal(hall, before, BLOCK_MOST), hall[before + 1..=before + more].iter().map(|node| node.address).collect());
    let mut journals: Vec<(Vec<u8>, Vec<u64>)> = halls.iter().map(made).collect();
    for (journal, block) in &journals {
        let (mut first, mut second) = (journal.clone(), journal.clone());
        assert_eq!(write(&mut first, block), simple::journal_write(&mut second, block));
        assert!(first == second && first != *journal);
    }
    let mut least = [f64::INFINITY; N];
    for _ in 0..ROUNDS {
        for (write, least) in writers.iter().zip(&mut least) {
            let start = Instant::now();
            for (journal, block) in &mut journals {
                let slot = black_box(write(journal, block)).slot;
                journal[slot * SLOT..][..SLOT].fill(0xFF);
            }
            *least = least.min(start.elapsed().as_nanos() as f64 / halls.len() as f64);
        }
    }
    least
}

/// The check of a block's bytes, recovery from small and large journals, and writing.
fn journal_rows(random: &mut Random) {
    let octets: Vec<Vec<u8>> = (0..PLANS).map(|_| (0..OCTETS).map(|_| random.next() as u8).collect()).collect();
    for octets in &octets {
        assert_eq!(crc(octets), simple::crc(octets));
    }
    row(
        &format!("CRC of {OCTETS} octets"),
        times_of(
            PLANS,
            [each!(octets, |octets| crc(octets)), each!(octets, |octets| called_crc(octets)), each!(octets, |octets| simple::crc(octets))],
        ),
    );
    let halls: Vec<Vec<Node>> = (0..JOURNALS).map(|_| hall(random, SMALL)).collect();
    let made = |addresses, each| halls.iter().map(|hall| journal(hall, addresses, each)).collect::<Vec<_>>();
    recovery_row("recovery, 128 erased slots", &made(0, 1), 1);
    recovery_row("recovery, 9 blocks, 511 addresses", &made(SMALL - 1, BLOCK_MOST), SMALL);
    recovery_row("recovery, 128 blocks, 511 addresses", &made(SMALL - 1, 4), SMALL);
    let writers = [write, called_write, simple::journal_write];
    row("write, the first block, 63 addresses", writing_times(&halls, 0, BLOCK_MOST, writers));
    row("write, 7 addresses behind 8 blocks of 63", writing_times(&halls, 8 * BLOCK_MOST, 7, writers));
}

/// A payload length, each size as often as another.
fn payload_length(random: &mut Random) -> u64 {
    match random.below(3) {
        0 => random.below(253),
        1 => 253 + random.below(255),
        _ => 508 + random.below(65_280),
    }
}

/// The older NSA fields of addresses of any length, both sides' answers compared, then a row for each way.
fn nsa_rows(random: &mut Random) {
    let fields: Vec<[u64; 3]> = (0..INPUTS).map(|_| [payload_length(random), random.address(), random.address()]).collect();
    let (mut out, mut out2, mut out3) = ([0; NSA_MOST], [0; NSA_MOST], [0; NSA_MOST]);
    let mut packet = |fields: &[u64; 3]| {
        let [length, source, destination] = *fields;
        let count = nsa_write(*fields, &mut out).count;
        assert_eq!(called_nsa_write(*fields, &mut out2).count, count);
        assert_eq!(out[..count], out2[..count]);
        let mut packet = out[..count].to_vec();
        packet.resize(64, 0);
        assert_eq!(nsa_read(&packet), Nsa { length, source, destination, place: count, refusal: 0 });
        assert_eq!(nsa_read(&packet), simple::nsa_read(&packet));
        packet
    };
    let packets: Vec<Vec<u8>> = fields.iter().map(&mut packet).collect();
    row(
        "NSA fields write",
        times([
            each!(fields, |f| nsa_write(*f, black_box(&mut out))),
            each!(fields, |f| called_nsa_write(*f, black_box(&mut out2))),
            each!(fields, |[l, s, d]| simple::nsa_write(*l, *s, *d, black_box(&mut out3))),
        ]),
    );
    row(
        "NSA fields read",
        times([each!(packets, |p| nsa_read(p)), each!(packets, |p| called_nsa_read(p)), each!(packets, |p| simple::nsa_read(p))]),
    );
}

/// Both sides' answers compared, then a row for each kind of child.
fn child_rows(name: &str, records: &[Node]) {
    for node in records {
        assert_eq!(router(*node), simple::child(*node, false), "{node:?}");
        assert_eq!(host(*node), simple::child(*node, true), "{node:?}");
    }
    row(
        &format!("child, a router{name}"),
        times([
            each!(records, |node| router(*node)),
            each!(records, |node| called_router(*node)),
            each!(records, |node| simple::child(*node, false)),
        ]),
    );
    row(
        &format!("child, a host{name}"),
        times([
            each!(records, |node| host(*node)),
            each!(records, |node| called_host(*node)),
            each!(records, |node| simple::child(*node, true)),
        ]),
    );
}

/// The same record with limits that it can have: of three, one is at it, one above it, one has none.
fn under_limits(random: &mut Random, node: Node) -> Node {
    let mut limit = |count: u8| match random.below(3) {
        0 => count,
        1 => count + random.below(65 - u64::from(count)) as u8,
        _ => 64,
    };
    Node { router_limit: limit(node.routers), host_limit: limit(node.hosts), ..node }
}

/// Limits set on records, some of them above 64 or below the count.
fn limit_row(records: &[Node], limits: &[u64]) {
    let settings: Vec<(Node, u64)> = records.iter().copied().zip(limits.iter().copied()).collect();
    for (node, limit) in &settings {
        assert_eq!(limit_hosts(*node, *limit), simple::limited(*node, true, *limit), "{node:?} {limit}");
    }
    row(
        "limit on hosts",
        times([
            each!(settings, |(node, limit)| limit_hosts(*node, *limit)),
            each!(settings, |(node, limit)| called_limit_hosts(*node, *limit)),
            each!(settings, |(node, limit)| simple::limited(*node, true, *limit)),
        ]),
    );
}

/// Destinations of packets at one node.
struct Traffic {
    name: &'static str,
    node: Node,
    destinations: Vec<u64>,
}

/// At a node of the hall that has many children: destinations of the whole hall.
fn in_the_hall(random: &mut Random, hall: &[Node]) -> Traffic {
    let routers = |node: &&Node| node.address > 1 && node.address % 2 == 0;
    let node = *hall.iter().filter(routers).max_by_key(|node| node.routers + node.hosts).unwrap();
    let destinations = (0..INPUTS).map(|_| hall[random.below(HALL as u64) as usize].address).collect();
    Traffic { name: "in the hall", node, destinations }
}

/// Destinations that begin with the node's address: most are below a child that isn't given.
fn below_the_node(random: &mut Random, node: Node) -> Traffic {
    let below = |_| {
        let more = random.below(u64::from(node.address.leading_zeros())) as u32;
        node.address << more | random.next() & ((1 << more) - 1)
    };
    Traffic { name: "below the node", node, destinations: (0..INPUTS).map(below).collect() }
}

/// The longest run of ones that a search can pass: the root's last host, 64 ones.
fn longest_run() -> Traffic {
    let node = Node { routers: 63, hosts: 63, ..unsafe { sys::pasa_fresh(1) } };
    Traffic { name: "longest run", node, destinations: vec![u64::MAX; INPUTS] }
}

/// One of the first's and one of the second's destinations by turns, at the first's node.
fn mixed(first: &Traffic, second: &Traffic) -> Traffic {
    let turns = first.destinations.iter().zip(&second.destinations).flat_map(|(a, b)| [*a, *b]);
    Traffic { name: "mixed", node: first.node, destinations: turns.take(INPUTS).collect() }
}

/// What a batch writes.
#[derive(PartialEq)]
struct Answers {
    nodes: Vec<u64>,
    actions: Vec<u8>,
    refusals: Vec<u8>,
}

impl Answers {
    fn new() -> Self {
        Answers { nodes: vec![0; INPUTS], actions: vec![0; INPUTS], refusals: vec![0; INPUTS] }
    }
}

impl Traffic {
    fn batch(&self, out: &mut Answers) -> usize {
        unsafe {
            sys::pasa_next_hops(
                self.node,
                self.destinations.as_ptr(),
                self.destinations.len(),
                out.nodes.as_mut_ptr(),
                out.nodes.len(),
                out.actions.as_mut_ptr(),
                out.actions.len(),
                out.refusals.as_mut_ptr(),
                out.refusals.len(),
            )
        }
    }

    fn called_batch(&self, out: &mut Answers) -> usize {
        called_next_hops(self.node, &self.destinations, &mut out.nodes, &mut out.actions, &mut out.refusals)
    }

    /// Both sides' answers compared, then a row for single calls and one for a batch.
    fn rows(&self) {
        let Traffic { name, node, ref destinations } = *self;
        let (mut out, mut out2) = (Answers::new(), Answers::new());
        for d in destinations {
            assert_eq!(next_hop(node, *d), simple::next_hop(node, *d), "{node:?} {d:#b}");
        }
        assert_eq!(self.batch(&mut out), INPUTS);
        assert_eq!(self.called_batch(&mut out2), INPUTS);
        assert!(out == out2);
        row(
            &format!("next hop, one call, {name}"),
            times([
                each!(destinations, |d| next_hop(node, *d)),
                each!(destinations, |d| called_next_hop(node, *d)),
                each!(destinations, |d| simple::next_hop(black_box(node), *d)),
            ]),
        );
        let [proved, rust] = times([
            &mut || {
                black_box(black_box(self).batch(&mut out));
            },
            &mut || {
                black_box(black_box(self).called_batch(&mut out2));
            },
        ]);
        println!("| next hop, batch, {name} | {proved:.2} | {rust:.2} | {:.2} | | |", proved / rust);
    }

    /// Each function of each side once for each destination, to be counted from outside.
    fn once(&self) {
        let mut out = Answers::new();
        let mut words = [0; 126];
        for d in &self.destinations {
            black_box(next_hop(self.node, *d));
            black_box(called_next_hop(self.node, *d));
            black_box(path(self.node.address, *d, &mut words));
            black_box(called_path(self.node.address, *d, &mut words));
        }
        black_box(self.batch(&mut out));
        black_box(self.called_batch(&mut out));
        println!("{INPUTS} inputs");
    }
}

fn main() {
    let random = &mut Random(2);
    let hall = hall(random, HALL);
    let in_the_hall = in_the_hall(random, &hall);
    let below_the_node = below_the_node(random, in_the_hall.node);
    let longest_run = longest_run();
    if let Some(name) = env::args().nth(1) {
        let mixed = mixed(&in_the_hall, &below_the_node);
        let named = [&longest_run, &mixed].into_iter().find(|traffic| traffic.name == name);
        return named.expect("longest run, or mixed").once();
    }
    println!("| function | proved, ns | Rust called, ns | ratio | Rust inlined, ns | ratio |\n|---|---|---|---|---|---|");
    for traffic in [&in_the_hall, &below_the_node, &longest_run] {
        traffic.rows();
    }

    let Traffic { node, ref destinations, .. } = in_the_hall;
    let records: Vec<Node> = (0..INPUTS).map(|_| hall[random.below(HALL as u64) as usize]).collect();
    child_rows("", &records);
    let limits: Vec<u64> = (0..INPUTS).map(|_| random.below(70)).collect();
    let under_limits: Vec<Node> = records.iter().map(|node| under_limits(random, *node)).collect();
    child_rows(", under limits", &under_limits);
    limit_row(&under_limits, &limits);

    let addresses: Vec<u64> = (0..INPUTS).map(|_| random.address()).collect();
    let mut out = [0; 11];
    let mut out2 = [0; 11];
    let mut out3 = [0; 11];
    let packets: Vec<Vec<u8>> = addresses
        .iter()
        .map(|a| {
            let count = header_write(*a, &mut out).count;
            assert_eq!(simple::header_write(*a, &mut out2).count, count);
            assert_eq!(out[..count], out2[..count]);
            let mut packet = out[..count].to_vec();
            // the header alone is refused: what is timed has a payload
            assert_eq!(header_read(&packet), simple::header_read(&packet));
            packet.resize(64, 0);
            assert_eq!(header_read(&packet), Read { address: *a, place: count, refusal: 0 });
            assert_eq!(header_read(&packet), simple::header_read(&packet));
            packet
        })
        .collect();
    row(
        "header write",
        times([
            each!(addresses, |a| header_write(*a, black_box(&mut out))),
            each!(addresses, |a| called_header_write(*a, black_box(&mut out2))),
            each!(addresses, |a| simple::header_write(*a, black_box(&mut out3))),
        ]),
    );
    row(
        "header read",
        times([each!(packets, |p| header_read(p)), each!(packets, |p| called_header_read(p)), each!(packets, |p| simple::header_read(p))]),
    );

    // a seed of its own, so that the rows behind it keep their inputs
    nsa_rows(&mut Random(3));

    let mut words = [0; 126];
    let mut words2 = [0; 126];
    let mut words3 = [0; 126];
    let pairs: Vec<(u64, u64)> = (0..INPUTS).map(|i| (destinations[i], destinations[INPUTS - 1 - i])).collect();
    let long: Vec<(u64, u64)> = (0..INPUTS).map(|_| (random.address(), random.address())).collect();
    for (name, pairs) in [("path, in the hall", &pairs), ("path, any addresses", &long)] {
        for (a, d) in pairs {
            let listed = path(*a, *d, &mut words);
            assert_eq!(listed, simple::path(*a, *d, &mut words2), "{a:#b} {d:#b}");
            assert_eq!(words[..=listed.hops as usize], words2[..=listed.hops as usize], "{a:#b} {d:#b}");
        }
        row(
            name,
            times([
                each!(pairs, |(a, d)| path(*a, *d, black_box(&mut words))),
                each!(pairs, |(a, d)| called_path(*a, *d, black_box(&mut words2))),
                each!(pairs, |(a, d)| simple::path(*a, *d, black_box(&mut words3))),
            ]),
        );
    }

    let plans: Vec<Vec<u8>> = (0..PLANS).map(|_| plan(random, SMALL)).collect();
    let mut words = [0; PLAN_NODES];
    let mut words2 = [0; PLAN_NODES];
    let mut words3 = [0; PLAN_NODES];
    for text in &plans {
        let read = plan_read(text, &mut words);
        assert_eq!(read, Plan { nodes: SMALL, place: 0, refusal: 0 });
        assert_eq!((simple::plan_read(text, &mut words2), words2), (read, words));
    }
    row(
        &format!("plan of {SMALL} nodes"),
        times_of(
            PLANS,
            [
                each!(plans, |text| plan_read(text, black_box(&mut words))),
                each!(plans, |text| called_plan_read(text, black_box(&mut words2))),
                each!(plans, |text| simple::plan_read(text, black_box(&mut words3))),
            ],
        ),
    );

    journal_rows(random);

    // What one would deploy otherwise: a table of the next hop for each node of the hall.
    let mut map: HashMap<u64, u64> = HashMap::new();
    let mut sorted: Vec<(u64, u64)> = Vec::new();
    for row in &hall {
        let hop = next_hop(node, row.address);
        assert_eq!(hop.refusal, 0);
        map.insert(row.address, hop.node);
        sorted.push((row.address, hop.node));
    }
    sorted.sort();
    sorted.shrink_to_fit();
    let (mut out, mut out2, mut out3) = (Answers::new(), Answers::new(), Answers::new());
    let [proved, hashed, searched] = times([
        &mut || {
            black_box(black_box(&in_the_hall).batch(&mut out));
        },
        &mut || {
            for (d, out) in black_box(destinations).iter().zip(&mut out2.nodes) {
                *out = map.get(d).copied().unwrap_or(0);
            }
        },
        &mut || {
            for (d, out) in black_box(destinations).iter().zip(&mut out3.nodes) {
                *out = sorted.binary_search_by_key(d, |row| row.0).map_or(0, |at| sorted[at].1);
            }
        },
    ]);
    // A slot of the map is a key, a value and one octet; it keeps an eighth of its slots free, and their number is a power of two.
    let slots = (map.capacity() * 8).div_ceil(7).next_power_of_two();
    println!("\n| next hop at one node of a hall of {HALL} | ns | state, octets |\n|---|---|---|");
    println!("| proved, batch | {proved:.2} | {} |", size_of::<Node>());
    println!("| hash map | {hashed:.2} | {} |", slots * 17);
    println!("| sorted table | {searched:.2} | {} |", sorted.len() * 16);

    growth::tables(random);
}
