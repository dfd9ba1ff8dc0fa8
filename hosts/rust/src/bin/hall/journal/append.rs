//! `hall journal append FILE A..`.
use super::fault::{self, Form};
use super::{check, file, lock, USAGE};
use crate::commands::wrong;
use crate::{text, Done, Failure};
use pasa::{Refusal, BLOCK_MOST, SLOT};
use std::ffi::{OsStr, OsString};
use std::fs::{File, OpenOptions};
use std::io::{self, Write};
use std::os::unix::fs::FileExt;

/// "Bytes are written in order": byte 511, which makes a block of what was a torn slot, goes out when all before it are on the disk. Between two
/// bytes, and so wherever the process ends, the file holds the beginning of the block.
fn put(file: &File, slot: usize, block: &[u8]) -> io::Result<()> {
    let begin = (slot * SLOT) as u64;
    let (front, last) = block.split_at(SLOT - 1);
    for (place, byte) in (begin..).zip(front) {
        file.write_all_at(&[*byte], place)?;
    }
    file.sync_data()?;
    file.write_all_at(last, begin + front.len() as u64)?;
    file.sync_data()
}

/// The file, to be read and written in place, when nobody else has it.
fn open(word: &OsStr) -> io::Result<File> {
    let file = OpenOptions::new().read(true).write(true).open(word)?;
    if !file.metadata()?.is_file() {
        return Err(io::Error::new(io::ErrorKind::InvalidInput, "it is no regular file"));
    }
    lock::writing(&file)?;
    Ok(file)
}

/// Why a block is refused.
fn refused(refusal: Refusal, journal: &[u8], block: &[u64]) -> Failure {
    // "12 if the journal's length is wrong or n is outside 1 to 63", whatever else is wrong with the journal
    if refusal == Refusal::WrongLength && !(1..=BLOCK_MOST).contains(&block.len()) {
        return Failure::Fault { refusal, shown: format!("{} addresses", block.len()) };
    }
    let known = match check::nodes(journal) {
        Ok(known) => known,
        Err(failure) => return failure,
    };
    let shown = match refusal {
        Refusal::NoRoom => {
            let slots = journal.len() / SLOT;
            Some(format!("slots written: {slots} of {slots}"))
        }
        _ => fault::address(block, &known),
    };
    shown.map_or(Failure::Refused(refusal), |shown| Failure::Fault { refusal, shown })
}

pub fn run(word: &OsStr, addresses: &[OsString], out: &mut dyn Write) -> Done {
    let number = |word: &String| text::number(word).map_err(|expected| wrong(USAGE, &expected));
    let block: Vec<u64> = text::words(addresses).iter().map(number).collect::<Result<_, _>>()?;
    if word == "-" {
        return Err(wrong(USAGE, "a file that can be written in place, not standard input"));
    }
    let name = || word.to_string_lossy().into_owned();
    let unwritable = |error| Failure::Unwritable { name: name(), error };
    let file = open(word).map_err(unwritable)?;
    let mut journal = file::front(&file).map_err(|error| Failure::Unreadable { name: name(), error })?;
    let slot = pasa::write_block(&mut journal, &block).map_err(|refusal| refused(refusal, &journal, &block))?;
    put(&file, slot, &journal[slot * SLOT..][..SLOT]).map_err(unwritable)?;
    let nodes = check::nodes(&journal)?.len();
    writeln!(out, "slot {slot}: {}", check::shown(&Form::Block(block), nodes))?;
    Ok(())
}
