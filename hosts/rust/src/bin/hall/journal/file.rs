//! Reading a journal's file.
use super::lock;
use crate::{input, Failure};
use pasa::{SLOT, SLOTS};
use std::ffi::OsStr;
use std::fs::File;
use std::io::{self, Read};

/// As many bytes as are read: one more than a journal may have shows that it is too long.
const MOST: usize = SLOTS * SLOT + 1;

/// The bytes of a file from its beginning, so far as a journal may need them.
pub fn front(mut file: &File) -> io::Result<Vec<u8>> {
    let mut bytes = Vec::new();
    file.by_ref().take(MOST as u64).read_to_end(&mut bytes)?;
    Ok(bytes)
}

/// The bytes of the journal that a word names, `-` being standard input.
pub fn read(word: &OsStr) -> Result<Vec<u8>, Failure> {
    if word == "-" {
        return input::front(word, MOST);
    }
    let bytes = File::open(word).and_then(|file| {
        lock::reading(&file);
        front(&file)
    });
    bytes.map_err(|error| Failure::Unreadable { name: word.to_string_lossy().into_owned(), error })
}

/// How long a journal is that has not the length of one.
pub fn length(journal: &[u8]) -> String {
    match journal.len() {
        0 => "no bytes".to_string(),
        MOST => format!("{MOST} bytes or more, and {SLOTS} slots have {}", MOST - 1),
        bytes => format!("{bytes} bytes, {} more than {} slots have", bytes % SLOT, bytes / SLOT),
    }
}
