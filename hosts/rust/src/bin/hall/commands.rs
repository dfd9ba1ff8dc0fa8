//! The commands, and what `help` says of each.
use crate::{child, draw, header, ipv6, journal, limit, next, nsa, path, plan, trace, Done, Failure};
use std::ffi::OsString;
use std::io::Write;

/// A command: its name, the lines that show its usage, what it does in the list of all, what `help` says of it, and the function that runs it
/// on the words behind its name.
pub struct Command {
    pub name: &'static str,
    pub usage: &'static str,
    pub list: &'static str,
    pub help: &'static str,
    pub run: fn(&[OsString], &mut dyn Write) -> Done,
}

static COMMANDS: [Command; 12] = [
    path::COMMAND,
    next::COMMAND,
    child::COMMAND,
    limit::COMMAND,
    plan::COMMAND,
    draw::COMMAND,
    trace::COMMAND,
    journal::COMMAND,
    header::COMMAND,
    ipv6::COMMAND,
    nsa::COMMAND,
    HELP,
];

const HELP: Command = Command {
    name: "help",
    usage: "usage: hall help [COMMAND]",
    list: "  help [COMMAND]            this text, or what one command does\n",
    help: "Shows the commands, or what one of them does.\n",
    run: help,
};

const USAGE: &str = "usage: hall COMMAND [ARGUMENTS], and 'hall help' lists the commands";

const VERSION: &str = "  --version                 the version, and the number of the archive's interface\n";

const ENDING: &str = "
An address A is binary digits, as 111110, or a number, as 0x3e or 0b111110. A RECORD is
a node's address with the routers and the hosts given so far, as 110:2,1, and each of
them with its limit where it has one, as 110:2/3,1.

Exit status: 0 done; 1 refused, with 'refused N: text' on standard error; 2 wrong
usage, text that cannot be read, a file that cannot be read or written.
";

fn find(name: &OsString) -> Result<&'static Command, Failure> {
    let known = COMMANDS.iter().find(|command| name == command.name);
    known.ok_or_else(|| {
        let names: Vec<&str> = COMMANDS.iter().map(|command| command.name).collect();
        wrong(USAGE, &format!("a command ({}), found '{}'", names.join(", "), name.to_string_lossy()))
    })
}

/// The failure of wrong usage.
pub fn wrong(usage: &'static str, expected: &str) -> Failure {
    Failure::Usage { expected: expected.to_string(), usage }
}

fn asks_for_help(word: &OsString) -> bool {
    word == "--help" || word == "-h"
}

fn list(out: &mut dyn Write) -> Done {
    write!(out, "hall: addresses, records, paths, packets, plans, journals and trees, by proved functions\n\n")?;
    for command in &COMMANDS {
        write!(out, "{}", command.list)?;
    }
    write!(out, "{VERSION}{ENDING}")?;
    Ok(())
}

fn describe(command: &Command, out: &mut dyn Write) -> Done {
    write!(out, "{}\n\n{}", command.usage, command.help)?;
    Ok(())
}

fn help(words: &[OsString], out: &mut dyn Write) -> Done {
    match words {
        [] => list(out),
        [name, ..] => describe(find(name)?, out),
    }
}

fn version(out: &mut dyn Write) -> Done {
    writeln!(out, "hall {}, interface {}", env!("CARGO_PKG_VERSION"), pasa::interface())?;
    Ok(())
}

/// Runs the command that the words name.
pub fn run(words: &[OsString], out: &mut dyn Write) -> Done {
    let Some((name, rest)) = words.split_first() else {
        return Err(wrong(USAGE, "a command"));
    };
    if name == "--version" {
        return version(out);
    }
    if asks_for_help(name) {
        return help(rest, out);
    }
    let command = find(name)?;
    if rest.iter().any(asks_for_help) {
        return describe(command, out);
    }
    (command.run)(rest, out)
}
