//! Standard input and named files.
use crate::Failure;
use std::ffi::OsStr;
use std::fs::File;
use std::io::{self, Read};

const STANDARD: &str = "standard input";

/// What a word names, `-` being standard input, and its name for messages.
pub fn open(word: &OsStr) -> Result<(Box<dyn Read>, String), Failure> {
    if word == "-" {
        return Ok((Box::new(io::stdin()), STANDARD.to_string()));
    }
    let name = word.to_string_lossy().into_owned();
    match File::open(word) {
        Ok(file) => Ok((Box::new(file), name)),
        Err(error) => Err(Failure::Unreadable { name, error }),
    }
}

/// The first octets of what a word names, so many at most.
pub fn front(word: &OsStr, most: usize) -> Result<Vec<u8>, Failure> {
    let (source, name) = open(word)?;
    let mut octets = Vec::new();
    match source.take(most as u64).read_to_end(&mut octets) {
        Ok(_) => Ok(octets),
        Err(error) => Err(Failure::Unreadable { name, error }),
    }
}

/// All of standard input.
pub fn text() -> Result<String, Failure> {
    let mut octets = Vec::new();
    match io::stdin().read_to_end(&mut octets) {
        Ok(_) => Ok(String::from_utf8_lossy(&octets).into_owned()),
        Err(error) => Err(Failure::Unreadable { name: STANDARD.to_string(), error }),
    }
}
