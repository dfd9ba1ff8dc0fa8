//! `hall` as a user runs it: each command, good and bad, by its output, its standard error and its exit status.
mod child;
mod draw;
mod examples;
mod header;
mod help;
mod ipv6;
mod journal;
mod limit;
mod next;
mod nsa;
mod path;
mod plan;
mod trace;
mod xml;

use std::ffi::OsStr;
use std::io::Write;
use std::path::{Path, PathBuf};
use std::process::{Command, Output, Stdio};

fn hall(words: &[impl AsRef<OsStr>]) -> Command {
    let mut command = Command::new(env!("CARGO_BIN_EXE_hall"));
    command.args(words).stdin(Stdio::piped()).stdout(Stdio::piped()).stderr(Stdio::piped());
    command
}

/// What `hall` answers to these words, with these octets on standard input.
fn answer(words: &[impl AsRef<OsStr>], input: &(impl AsRef<[u8]> + ?Sized)) -> Output {
    let mut child = hall(words).spawn().unwrap();
    let mut stdin = child.stdin.take().unwrap();
    let input = input.as_ref().to_vec();
    // a program that ends early reads no more: that is for its answer to show
    let writer = std::thread::spawn(move || drop(stdin.write_all(&input)));
    let output = child.wait_with_output().unwrap();
    writer.join().unwrap();
    output
}

fn text(octets: &[u8]) -> &str {
    std::str::from_utf8(octets).unwrap()
}

/// A file with these octets, below the target folder.
fn file(name: &str, octets: impl AsRef<[u8]>) -> PathBuf {
    let file = Path::new(env!("CARGO_TARGET_TMPDIR")).join(name);
    std::fs::write(&file, octets).unwrap();
    file
}

/// The words of a command line.
fn words(line: &str) -> Vec<&str> {
    line.split(' ').filter(|word| !word.is_empty()).collect()
}

/// Done: this text on standard output, nothing on standard error, exit status 0.
fn says(line: &str, expected: &str) {
    let got = answer(&words(line), "");
    assert_eq!((text(&got.stdout), text(&got.stderr), got.status.code()), (expected, "", Some(0)), "hall {line}");
}

/// Refused: nothing on standard output, the refusal on standard error, exit status 1.
fn refuses(line: &str, expected: &str) {
    let got = answer(&words(line), "");
    assert_eq!((text(&got.stdout), text(&got.stderr), got.status.code()), ("", format!("{expected}\n").as_str(), Some(1)), "hall {line}");
}

/// Wrong usage: nothing on standard output, what was expected and the usage on standard error, exit status 2.
fn misuses(line: &str, expected: &str) {
    misuses_words(&words(line), expected);
}

fn misuses_words(words: &[&str], expected: &str) {
    let got = answer(words, "");
    assert_eq!((text(&got.stdout), got.status.code()), ("", Some(2)), "hall {words:?}");
    let said = text(&got.stderr);
    assert!(said.starts_with(&format!("hall: expected {expected}")), "hall {words:?} says {said}");
    assert!(said.contains("\nusage: hall "), "hall {words:?} says {said}");
}

const REFUSED_1: &str = "refused 1: the node record is bad, or a limit to set isn't 0 to 64 or is below its count";
const REFUSED_2: &str = "refused 2: a host is asked for a child";
const REFUSED_3: &str = "refused 3: the child would be longer than 64 bits";
const REFUSED_4: &str = "refused 4: the packet ends too early";
const REFUSED_5: &str = "refused 5: one of the first three octets is wrong";
const REFUSED_6: &str =
    "refused 6: a size above 8, a first octet of zero where there are several, or an NSA field that isn't the shortest form of a number";
const REFUSED_7: &str = "refused 7: destination below this node, child not given";
const REFUSED_8: &str = "refused 8: IPv6 prefix differs";
const REFUSED_9: &str = "refused 9: an address is zero";
const REFUSED_10: &str = "refused 10: lent output too short, or no slot of a journal is erased";
const REFUSED_12: &str =
    "refused 12: an IPv6 address isn't 16 octets, a prefix isn't 8, a journal isn't 1 to 128 slots, or a block isn't 1 to 63 addresses";
const REFUSED_13: &str = "refused 13: a plan's text is outside the grammar";
const REFUSED_14: &str =
    "refused 14: a plan has too many bytes, a plan or a journal too many nodes, or an NSA payload length is above 65,787";
const REFUSED_15: &str = "refused 15: a node is asked for a child at its limit";
const REFUSED_16: &str = "refused 16: the payload is empty";
const REFUSED_17: &str = "refused 17: a journal's slot is out of place or no right block, or an address in it is no next child";
