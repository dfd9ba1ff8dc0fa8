//! `hall journal new FILE SLOTS`.
use super::{check, USAGE};
use crate::commands::wrong;
use crate::{Done, Failure};
use pasa::{Refusal, SLOT, SLOTS};
use std::ffi::{OsStr, OsString};
use std::fs::{self, File, OpenOptions};
use std::io::{self, Write};
use std::path::Path;

/// The number of slots in a word: "The journal is 1 to 128 slots of 512 bytes".
fn slots(word: &OsString) -> Result<usize, Failure> {
    let digits = word.to_string_lossy();
    if digits.is_empty() || !digits.bytes().all(|digit| digit.is_ascii_digit()) {
        return Err(wrong(USAGE, &format!("a number of slots, 1 to {SLOTS}, found '{digits}'")));
    }
    let slots = digits.parse().ok().filter(|slots| (1..=SLOTS).contains(slots));
    slots.ok_or(Failure::Refused(Refusal::WrongLength))
}

/// Fills a new file. It has its length before any byte of it is erased, and zeros till then: so one that is cut off here is no journal of fewer
/// slots, but refused.
fn fill(file: &mut File, journal: &[u8]) -> io::Result<()> {
    file.set_len(journal.len() as u64)?;
    file.write_all(journal)?;
    file.sync_all()
}

/// The entry of a new file reaches the disk with its folder. Where a folder cannot be synced, that is as far as one can go.
fn keep_entry(path: &Path) {
    let folder = path.parent().filter(|folder| !folder.as_os_str().is_empty()).unwrap_or(Path::new("."));
    let _ = File::open(folder).and_then(|folder| folder.sync_all());
}

pub fn run(word: &OsStr, number: &OsString, out: &mut dyn Write) -> Done {
    let slots = slots(number)?;
    if word == "-" {
        return Err(wrong(USAGE, "a new file, not standard input"));
    }
    let journal = vec![0xFF; slots * SLOT];
    let failed = |error| Failure::Unwritable { name: word.to_string_lossy().into_owned(), error };
    let mut file = OpenOptions::new().write(true).create_new(true).open(word).map_err(failed)?;
    if let Err(error) = fill(&mut file, &journal) {
        // it was not there before
        let _ = fs::remove_file(word);
        return Err(failed(error));
    }
    keep_entry(Path::new(word));
    writeln!(out, "{}", check::judge(&journal).summary())?;
    Ok(())
}
