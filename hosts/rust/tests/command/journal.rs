use crate::{answer, misuses, text, REFUSED_10, REFUSED_12, REFUSED_14, REFUSED_17};
use std::path::{Path, PathBuf};
use std::process::Output;

const SLOT: usize = 512;

/// A file that is not there, below the target folder.
fn fresh(name: &str) -> PathBuf {
    let file = Path::new(env!("CARGO_TARGET_TMPDIR")).join(name);
    let _ = std::fs::remove_file(&file);
    file
}

/// What `hall journal` answers to these words, where `@` is the file.
fn asked(line: &str, file: &Path) -> Output {
    let words: Vec<&str> = line.split(' ').map(|word| if word == "@" { file.to_str().unwrap() } else { word }).collect();
    answer(&[&["journal"], &words[..]].concat(), "")
}

fn says(line: &str, file: &Path, expected: &str) {
    let got = asked(line, file);
    assert_eq!((text(&got.stdout), text(&got.stderr), got.status.code()), (expected, "", Some(0)), "hall journal {line}");
}

/// Refused, with the file as it was.
fn refuses(line: &str, file: &Path, out: &str, error: &str) {
    let before = std::fs::read(file).ok();
    let got = asked(line, file);
    assert_eq!(
        (text(&got.stdout), text(&got.stderr), got.status.code()),
        (out, format!("{error}\n").as_str(), Some(1)),
        "hall journal {line}"
    );
    assert!(std::fs::read(file).ok() == before, "hall journal {line} changes the file");
}

/// A failure that is no refusal, with the file as it was.
fn fails(line: &str, file: &Path, error: &str) {
    let before = std::fs::read(file).ok();
    let got = asked(line, file);
    assert_eq!((text(&got.stdout), got.status.code()), ("", Some(2)), "hall journal {line}");
    assert!(text(&got.stderr).starts_with(error), "hall journal {line} says {}", text(&got.stderr));
    assert!(std::fs::read(file).ok() == before, "hall journal {line} changes the file");
}

/// A journal with these blocks, by the archive, and so many erased slots behind them.
fn journal(blocks: &[&[u64]], erased: usize) -> Vec<u8> {
    let mut journal = vec![0xFF; (blocks.len() + erased) * SLOT];
    for (slot, block) in blocks.iter().enumerate() {
        assert_eq!(pasa::write_block(&mut journal, block), Ok(slot));
    }
    journal
}

fn file(name: &str, octets: &[u8]) -> PathBuf {
    crate::file(name, octets)
}

/// The CRC of a slot made right again.
fn right_again(slot: &mut [u8]) {
    let crc = pasa::crc(&slot[..509]).to_be_bytes();
    slot[509..511].copy_from_slice(&crc);
}

/// So many addresses: 63 routers and 63 hosts of the root, 62 and 62 of node 10, and so on to the longest; then those of node 110, of 1100 and so
/// on, and those of 1110.
fn first(count: usize) -> Vec<u64> {
    let parents = [0b1u64, 0b110, 0b1110].into_iter().flat_map(|first| (0..first.leading_zeros()).map(move |zeros| first << zeros));
    let children = |parent: u64, host: u64| (0..parent.leading_zeros()).map(move |index| (((parent + 1) << index) - 1) << 1 | host);
    parents.flat_map(|parent| children(parent, 0).chain(children(parent, 1))).take(count).collect()
}

/// The addresses of a hall of 4,096 nodes, and the next child that would be one more.
fn most() -> (Vec<u64>, u64) {
    let mut most = first(4096);
    let next = most.pop().unwrap();
    (most, next)
}

#[test]
fn makes_a_journal() {
    let new = fresh("new.journal");
    says("new @ 3", &new, "slots 3 blocks 0 torn 0 erased 3 wrong 0 nodes 1\n");
    assert_eq!(std::fs::read(&new).unwrap(), vec![0xFF; 3 * SLOT]);
    says("show @", &new, "nodes 1\n1 root   depth 0 parent none routers 0 hosts 0\n");
    let most = fresh("most.journal");
    says("new @ 128", &most, "slots 128 blocks 0 torn 0 erased 128 wrong 0 nodes 1\n");
    assert_eq!(std::fs::read(&most).unwrap().len(), 65_536);
}

#[test]
fn never_over_a_file() {
    let there = file("there.journal", b"something else");
    fails("new @ 3", &there, "hall: cannot write ");
    fails("new @ 3", Path::new(env!("CARGO_MANIFEST_DIR")), "hall: cannot write ");
    fails("new no/such/folder/hall.journal 3", &there, "hall: cannot write no/such/folder/hall.journal: ");
    let none = fresh("none.journal");
    for slots in ["0", "129", "99999999999999999999999"] {
        refuses(&format!("new @ {slots}"), &none, "", REFUSED_12);
    }
    assert!(!none.exists());
}

#[test]
fn appends_a_block() {
    let hall = fresh("append.journal");
    says("new @ 3", &hall, "slots 3 blocks 0 torn 0 erased 3 wrong 0 nodes 1\n");
    says("append @ 10 0x3 0b101", &hall, "slot 0: block of 3, nodes 4\n");
    assert!(std::fs::read(&hall).unwrap() == journal(&[&[2, 3, 5]], 2));
    says("append @ 110", &hall, "slot 1: block of 1, nodes 5\n");
    assert!(std::fs::read(&hall).unwrap() == journal(&[&[2, 3, 5], &[6]], 1));
    says(
        "show @",
        &hall,
        "nodes 5\n1   root   depth 0 parent none routers 2 hosts 1\n10  router depth 1 parent 1    routers 0 hosts 1\n\
         11  host   depth 1 parent 1    routers 0 hosts 0\n101 host   depth 2 parent 10   routers 0 hosts 0\n\
         110 router depth 1 parent 1    routers 0 hosts 0\n",
    );
    let hosts: Vec<String> = (1..64).map(|ones| format!("11{}", "1".repeat(ones - 1))).skip(1).collect();
    says(&format!("append @ {}", hosts.join(" ")), &hall, "slot 2: block of 62, nodes 67\n");
    refuses("append @ 1110", &hall, "", &format!("{REFUSED_10}\nslots written: 3 of 3"));
    refuses("append @ 110", &hall, "", &format!("{REFUSED_17}\naddress 1 of the block, 110: it is known already"));
}

#[test]
fn says_which_address_is_at_fault() {
    let hall = file("fault.journal", &journal(&[&[2, 3]], 2));
    let refused = |addresses: &str, why: &str| refuses(&format!("append @ {addresses}"), &hall, "", &format!("{REFUSED_17}\n{why}"));
    refused("0", "address 1 of the block, 0: zero is no address");
    refused("110 1", "address 2 of the block, 1: the root is known from the start");
    refused("110 11", "address 2 of the block, 11: it is known already");
    refused("110 111 110", "address 3 of the block, 110: it is known already");
    refused("1100", "address 1 of the block, 1100: its parent 110 is not known");
    refused("1110", "address 1 of the block, 1110: the next router of 1 is 110");
    refused("1011", "address 1 of the block, 1011: the next host of 10 is 101");
    refuses(&format!("append @{}", " 110".repeat(64)), &hall, "", &format!("{REFUSED_12}\n64 addresses"));
    let (most, next) = most();
    let full = file("full.journal", &journal(&most.chunks(63).collect::<Vec<_>>(), 1));
    says("check @", &full, &checked_full());
    let why = format!("address 1 of the block, {next:b}: it would be node 4097");
    refuses(&format!("append @ {next:b}"), &full, "", &format!("{REFUSED_14}\n{why}"));
}

fn full_blocks(count: usize) -> String {
    (0..count).map(|slot| format!("slot {slot}: block of 63, nodes {}\n", 63 * (slot + 1) + 1)).collect()
}

fn checked_full() -> String {
    full_blocks(65) + "slot 65: erased\nslots 66 blocks 65 torn 0 erased 1 wrong 0 nodes 4096\n"
}

/// The most before request Six, and one more.
#[test]
fn a_513th_node() {
    let addresses = first(512);
    let hall = file("512.journal", &journal(&addresses[..511].chunks(63).collect::<Vec<_>>(), 1));
    let blocks = full_blocks(8) + "slot 8: block of 7, nodes 512\n";
    says("check @", &hall, &format!("{blocks}slot 9: erased\nslots 10 blocks 9 torn 0 erased 1 wrong 0 nodes 512\n"));
    says(&format!("append @ {:b}", addresses[511]), &hall, "slot 9: block of 1, nodes 513\n");
}

#[test]
fn shows_and_draws_as_many_as_a_journal_may_have() {
    let (most, _) = most();
    let hall = file("most.journal", &journal(&most.chunks(63).collect::<Vec<_>>(), 63));
    let shown = asked("show @", &hall);
    assert_eq!((text(&shown.stderr), shown.status.code()), ("", Some(0)));
    let lines: Vec<&str> = text(&shown.stdout).lines().collect();
    assert_eq!((lines[0], lines.len()), ("nodes 4096", 4097));
    assert_eq!(lines[1], format!("{:64} root   depth 0 parent {:63} routers 63 hosts 63", "1", "none"));
    assert_eq!(lines[4096], format!("{:64} host   depth 2 parent {:63} routers 0 hosts 0", "11011", "110"));
    let drawn = asked("draw @", &hall);
    assert_eq!((text(&drawn.stderr), drawn.status.code()), ("", Some(0)));
    assert_eq!(text(&drawn.stdout).matches("<g><title>").count(), 4096);
}

#[test]
fn a_torn_slot_is_passed_over() {
    let mut octets = journal(&[&[2], &[3]], 1);
    octets[2 * SLOT - 1] = 0xFF;
    let hall = file("torn.journal", &octets);
    let before = "slot 0: block of 1, nodes 2\nslot 1: torn\n";
    says("check @", &hall, &format!("{before}slot 2: erased\nslots 3 blocks 1 torn 1 erased 1 wrong 0 nodes 2\n"));
    says("append @ 11 110", &hall, "slot 2: block of 2, nodes 4\n");
    says("check @", &hall, &format!("{before}slot 2: block of 2, nodes 4\nslots 3 blocks 2 torn 1 erased 0 wrong 0 nodes 4\n"));
}

/// A journal of four slots, the second of them damaged so: by its line, by the refusal, and by every command.
fn faulty(what: &str, damage: impl Fn(&mut [u8]), why: &str, refusal: &str) {
    let mut octets = journal(&[&[2], &[3, 5], &[6]], 1);
    damage(&mut octets[SLOT..2 * SLOT]);
    let hall = file("faulty.journal", &octets);
    let number = &refusal[8..10];
    let out = format!(
        "slot 0: block of 1, nodes 2\nslot 1: refused {number}: {why}\nslot 2: block of 1, not judged\nslot 3: erased, not judged\n"
    );
    let got = asked("check @", &hall);
    assert!(text(&got.stdout).starts_with(&out), "{what}: {}", text(&got.stdout));
    assert!(text(&got.stdout).lines().last().unwrap().starts_with("slots 4 blocks "), "{what}: {}", text(&got.stdout));
    let error = format!("{refusal}\nslot 1: {why}");
    assert_eq!((text(&got.stderr), got.status.code()), (format!("{error}\n").as_str(), Some(1)), "{what}");
    for line in ["show @", "draw @", "append @ 111"] {
        refuses(line, &hall, "", &error);
    }
    refuses(&format!("append @{}", " 111".repeat(64)), &hall, "", &format!("{REFUSED_12}\n64 addresses"));
}

#[test]
fn says_what_is_wrong_with_a_slot() {
    faulty("the last byte", |slot| slot[511] = 0x00, "byte 511 is 0x00, not 0xff or 0xa5", REFUSED_17);
    faulty("the first byte", |slot| slot[0] = 0x51, "byte 0 is 0x51, not 0x50", REFUSED_17);
    faulty("no addresses", |slot| slot[1] = 0, "byte 1 counts 0 addresses, not 1 to 63", REFUSED_17);
    faulty("64 addresses", |slot| slot[1] = 64, "byte 1 counts 64 addresses, not 1 to 63", REFUSED_17);
    faulty("no zero", |slot| slot[18] = 1, "byte 18 is 0x01, not 0, behind the addresses", REFUSED_17);
    faulty("byte 508", |slot| slot[508] = 0xFF, "byte 508 is 0xff, not 0, behind the addresses", REFUSED_17);
    let crc = pasa::crc(&journal(&[&[2], &[3, 5]], 0)[SLOT..SLOT + 509]);
    let why = format!("bytes 509 and 510 are 0x{:04x}, and the CRC of bytes 0 to 508 is 0x{crc:04x}", crc ^ 1);
    faulty("the CRC", |slot| slot[510] ^= 1, &why, REFUSED_17);
    let other = |slot: &mut [u8]| {
        slot[17] = 4;
        slot[9] = 11;
        right_again(slot);
    };
    faulty("an address", other, "address 1 of the block, 1011: the next host of 10 is 101", REFUSED_17);
}

#[test]
fn says_what_stands_in_the_wrong_place() {
    let mut octets = journal(&[&[2]], 3);
    octets[2 * SLOT] = 0x50;
    let hall = file("place.journal", &octets);
    let out = "slot 0: block of 1, nodes 2\nslot 1: erased\nslot 2: refused 17: it stands behind slot 1, which is erased\n\
               slot 3: erased, not judged\nslots 4 blocks 1 torn 1 erased 2 wrong 0\n";
    let why = "slot 2: it stands behind slot 1, which is erased";
    refuses("check @", &hall, out, &format!("{REFUSED_17}\n{why}"));
    refuses("append @ 11", &hall, "", &format!("{REFUSED_17}\n{why}"));
}

/// A block of these addresses, by hand, whatever they are.
fn put(slot: &mut [u8], addresses: &[u64]) {
    slot.fill(0);
    (slot[0], slot[1], slot[511]) = (0x50, addresses.len() as u8, 0xA5);
    for (octets, address) in slot[2..506].chunks_mut(8).zip(addresses) {
        octets.copy_from_slice(&address.to_be_bytes());
    }
    right_again(slot);
}

#[test]
fn a_node_too_many() {
    let (most, next) = most();
    let mut octets = journal(&most.chunks(63).collect::<Vec<_>>(), 1);
    put(&mut octets[65 * SLOT..], &[next]);
    let hall = file("too-many.journal", &octets);
    let why = format!("slot 65: address 1 of the block, {next:b}: it would be node 4097");
    refuses("show @", &hall, "", &format!("{REFUSED_14}\n{why}"));
}

/// 128 slots hold 8,064 addresses, which are more than a hall may have.
#[test]
fn full_blocks_in_every_slot() {
    let (addresses, (_, next)) = (first(128 * 63), most());
    assert_eq!(addresses.len(), 8064);
    let mut octets = vec![0xFF; 128 * SLOT];
    for (slot, block) in octets.chunks_mut(SLOT).zip(addresses.chunks(63)) {
        put(slot, block);
    }
    let hall = file("full-blocks.journal", &octets);
    let why = format!("address 1 of the block, {next:b}: it would be node 4097");
    let behind: String = (66..128).map(|slot| format!("slot {slot}: block of 63, not judged\n")).collect();
    let out = full_blocks(65) + &format!("slot 65: refused 14: {why}\n{behind}slots 128 blocks 128 torn 0 erased 0 wrong 0\n");
    refuses("check @", &hall, &out, &format!("{REFUSED_14}\nslot 65: {why}"));
    refuses("append @ 10", &hall, "", &format!("{REFUSED_14}\nslot 65: {why}"));
}

#[test]
fn files_that_are_no_journals() {
    let lengths: [(usize, &str); 4] = [
        (0, "no bytes"),
        (511, "511 bytes, 511 more than 0 slots have"),
        (1025, "1025 bytes, 1 more than 2 slots have"),
        (65_537, "65537 bytes or more, and 128 slots have 65536"),
    ];
    for (length, why) in lengths {
        let hall = file("length.journal", &vec![0xFF; length]);
        for line in ["check @", "show @", "draw @", "append @ 10"] {
            refuses(line, &hall, "", &format!("{REFUSED_12}\n{why}"));
        }
    }
    for line in ["check", "show", "draw"] {
        let folder = Path::new(env!("CARGO_MANIFEST_DIR"));
        fails(&format!("{line} no/such/file"), folder, "hall: cannot read no/such/file: ");
        fails(&format!("{line} @"), folder, &format!("hall: cannot read {}: ", folder.display()));
    }
    fails("append no/such/file 10", Path::new(""), "hall: cannot write no/such/file: ");
    fails("append @ 10", Path::new(env!("CARGO_MANIFEST_DIR")), "hall: cannot write ");
}

#[cfg(target_os = "linux")]
#[test]
fn files_that_are_none() {
    refuses("check /dev/zero", Path::new(""), "", &format!("{REFUSED_12}\n65537 bytes or more, and 128 slots have 65536"));
    fails("append /dev/null 10", Path::new(""), "hall: cannot write /dev/null: it is no regular file");
}

#[test]
fn a_journal_on_standard_input() {
    let octets = journal(&[&[2, 5, 3]], 0);
    let got = answer(&["journal", "check", "-"], &octets);
    assert_eq!(text(&got.stdout), "slot 0: block of 3, nodes 4\nslots 1 blocks 1 torn 0 erased 0 wrong 0 nodes 4\n");
    // the same hall as that of a plan, whatever the order in which its nodes were given
    let drawn = answer(&["draw", "-"], "R(R(H)H)");
    for order in [[2, 5, 3], [2, 3, 5], [3, 2, 5]] {
        let got = answer(&["journal", "draw", "-"], &journal(&[&order], 1));
        assert_eq!((got.status.code(), got.stdout == drawn.stdout), (Some(0), true));
    }
}

/// Each waits for the one before it, so each block has a slot of its own.
#[test]
fn appends_at_once() {
    let routers: Vec<u64> = (1..17).map(|length| (2 << length) - 2).collect();
    let hall = file("at-once.journal", &journal(&[&routers], 20));
    let appends: Vec<_> = routers
        .iter()
        .map(|router| {
            let (hall, line) = (hall.clone(), format!("append @ {:b} {:b}", router * 2, router * 2 + 1));
            std::thread::spawn(move || asked(&line, &hall))
        })
        .collect();
    let mut said: Vec<String> = appends
        .into_iter()
        .map(|append| {
            let got = append.join().unwrap();
            assert_eq!((text(&got.stderr), got.status.code()), ("", Some(0)));
            text(&got.stdout).to_string()
        })
        .collect();
    said.sort_by_key(|line| line.len());
    said[..9].sort();
    said[9..].sort();
    let expected: Vec<String> = (1..17).map(|slot| format!("slot {slot}: block of 2, nodes {}\n", 17 + 2 * slot)).collect();
    assert_eq!(said, expected);
    assert_eq!(text(&asked("check @", &hall).stdout).lines().last(), Some("slots 21 blocks 17 torn 0 erased 4 wrong 0 nodes 49"));
}

#[test]
fn wrong_usage() {
    misuses("journal", "'new', 'append', 'show', 'draw' or 'check'");
    misuses("journal read", "'new', 'append', 'show', 'draw' or 'check', found 'read'");
    misuses("journal new", "a file and a number of slots");
    misuses("journal new one", "a file and a number of slots");
    misuses("journal new one 2 3", "a file and a number of slots");
    misuses("journal new one x", "a number of slots, 1 to 128, found 'x'");
    misuses("journal new one -1", "a number of slots, 1 to 128, found '-1'");
    misuses("journal new - 4", "a new file, not standard input");
    misuses("journal append", "a file, and an address or more");
    misuses("journal append one", "a file, and an address or more");
    misuses("journal append - 10", "a file that can be written in place, not standard input");
    misuses("journal append one 10 2", "an address, binary digits as 111110 or a number as 0x3e or 0b111110, found '2'");
    misuses("journal append one 01", "an address whose first digit is 1, found '01'");
    for line in ["show", "draw", "check"] {
        misuses(&format!("journal {line}"), "one file, or - for standard input");
        misuses(&format!("journal {line} one two"), "one file, or - for standard input");
    }
    assert!(!Path::new("one").exists());
}
