//! `hall`: paths, next hops, children and limits, headers, IPv6 forms, the older NSA fields, hall plans, journals and whole trees on the command
//! line. Every address and every hop that it prints is the answer of a proved function of libpasa.a; the text around them is this program's.
//! docs/HALL.md describes it.
mod child;
mod commands;
mod describe;
mod draw;
mod failure;
mod header;
mod hex;
mod input;
mod ipv6;
mod journal;
mod kind;
mod limit;
mod next;
mod nsa;
mod path;
mod plan;
mod text;
mod trace;

use failure::Failure;
use std::ffi::OsString;
use std::io::{self, BufWriter, Write};
use std::process::ExitCode;

/// What a command answers once its output is handed over.
type Done = Result<(), Failure>;

fn main() -> ExitCode {
    let words: Vec<OsString> = std::env::args_os().skip(1).collect();
    let mut out = BufWriter::with_capacity(1 << 16, io::stdout().lock());
    let done = commands::run(&words, &mut out);
    // what was written before a failure stands before its message
    let flushed = out.flush().map_err(Failure::Output);
    match done.and(flushed) {
        Ok(()) => ExitCode::SUCCESS,
        Err(failure) => failure.report(),
    }
}
