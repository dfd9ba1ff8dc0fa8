//! What ends a command early, what it says on standard error, and the exit status.
use pasa::Refusal;
use std::fmt;
use std::io::{self, Write};
use std::process::ExitCode;

pub enum Failure {
    /// A refusal of the papers.
    Refused(Refusal),
    /// A refusal of a text or a journal, and the lines that show where.
    Fault { refusal: Refusal, shown: String },
    /// What was expected, and the lines that show the usage.
    Usage { expected: String, usage: &'static str },
    /// A line of a trace, counted from 1, and what was expected there.
    BadInput { line: u64, expected: String },
    /// A file, and why it cannot be read.
    Unreadable { name: String, error: io::Error },
    /// A file, and why it cannot be written.
    Unwritable { name: String, error: io::Error },
    /// Standard output cannot be written.
    Output(io::Error),
}

impl Failure {
    /// Says what is wrong, and answers the exit status: 1 for a refusal of the papers, 2 for all else. A pipe that its reader has closed is
    /// nothing to speak of: nobody wants the rest.
    pub fn report(&self) -> ExitCode {
        if matches!(self, Failure::Output(error) if error.kind() == io::ErrorKind::BrokenPipe) {
            return ExitCode::SUCCESS;
        }
        // where standard error is closed too, the exit status has to do
        let _ = writeln!(io::stderr(), "{self}");
        match self {
            Failure::Refused(_) | Failure::Fault { .. } => ExitCode::from(1),
            _ => ExitCode::from(2),
        }
    }
}

impl fmt::Display for Failure {
    fn fmt(&self, f: &mut fmt::Formatter<'_>) -> fmt::Result {
        match self {
            Failure::Refused(refusal) => write!(f, "{refusal}"),
            Failure::Fault { refusal, shown } => write!(f, "{refusal}\n{shown}"),
            Failure::Usage { expected, usage } => write!(f, "hall: expected {expected}\n{usage}"),
            Failure::BadInput { line, expected } => write!(f, "bad input at line {line}\nexpected {expected}"),
            Failure::Unreadable { name, error } => write!(f, "hall: cannot read {name}: {error}"),
            Failure::Unwritable { name, error } => write!(f, "hall: cannot write {name}: {error}"),
            Failure::Output(error) => write!(f, "hall: cannot write: {error}"),
        }
    }
}

impl From<Refusal> for Failure {
    fn from(refusal: Refusal) -> Failure {
        Failure::Refused(refusal)
    }
}

/// An error in handing the output over; what is read has failures of its own.
impl From<io::Error> for Failure {
    fn from(error: io::Error) -> Failure {
        Failure::Output(error)
    }
}
