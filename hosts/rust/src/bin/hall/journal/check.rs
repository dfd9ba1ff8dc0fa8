//! `hall journal check FILE`: each slot of a journal, and the first fault.
use super::fault::{self, Form};
use super::file;
use crate::{Done, Failure};
use pasa::{Refusal, NODES, SLOT};
use std::ffi::OsStr;
use std::fmt;
use std::io::Write;

/// What is said of the slots of a journal.
pub struct Judged {
    lines: Vec<String>,
    summary: Summary,
    /// the first fault, and where and why
    fault: Option<(Refusal, String)>,
}

/// How many slots there are of each form; and the nodes, where nothing is at fault.
#[derive(Default)]
struct Summary {
    blocks: usize,
    torn: usize,
    erased: usize,
    wrong: usize,
    nodes: Option<usize>,
}

impl Summary {
    fn add(&mut self, form: &Form) {
        *match form {
            Form::Block(_) => &mut self.blocks,
            Form::Torn => &mut self.torn,
            Form::Erased => &mut self.erased,
            Form::Wrong(_) => &mut self.wrong,
        } += 1;
    }
}

impl fmt::Display for Summary {
    fn fmt(&self, f: &mut fmt::Formatter<'_>) -> fmt::Result {
        let Summary { blocks, torn, erased, wrong, nodes } = *self;
        write!(f, "slots {} blocks {blocks} torn {torn} erased {erased} wrong {wrong}", blocks + torn + erased + wrong)?;
        nodes.map_or(Ok(()), |nodes| write!(f, " nodes {nodes}"))
    }
}

/// What a slot is, where it is not at fault and so many nodes are known behind it.
pub fn shown(form: &Form, nodes: usize) -> String {
    match form {
        Form::Block(addresses) => format!("block of {}, nodes {nodes}", addresses.len()),
        other => unjudged(other),
    }
}

/// What a slot is by itself.
fn unjudged(form: &Form) -> String {
    match form {
        Form::Erased => "erased".to_string(),
        Form::Torn => "torn".to_string(),
        Form::Block(addresses) => format!("block of {}", addresses.len()),
        Form::Wrong(why) => why.clone(),
    }
}

/// Why a slot is at fault, with these nodes known before it, and an erased slot before it or none: "in a slot its place and form before its
/// addresses".
fn why(form: &Form, erased: Option<usize>, known: &[u64]) -> String {
    if let Some(slot) = erased {
        return format!("it stands behind slot {slot}, which is erased");
    }
    match form {
        Form::Block(addresses) => fault::address(addresses, known).expect("a right block is refused for one of its addresses"),
        other => unjudged(other),
    }
}

/// The slots of a journal that has the length of one, judged by what the archive recovers from the slots up to each.
pub fn judge(journal: &[u8]) -> Judged {
    let mut judged = Judged { lines: Vec::new(), summary: Summary::default(), fault: None };
    let mut words = [0; NODES];
    let mut known = vec![1];
    let mut erased = None;
    for (slot, bytes) in journal.chunks(SLOT).enumerate() {
        let form = Form::of(bytes);
        judged.summary.add(&form);
        let line = if judged.fault.is_some() {
            format!("{}, not judged", unjudged(&form))
        } else {
            match pasa::recover_journal(&journal[..(slot + 1) * SLOT], &mut words) {
                Ok(nodes) => {
                    known = words[..nodes].to_vec();
                    shown(&form, nodes)
                }
                Err(refusal) => {
                    let why = why(&form, erased, &known);
                    judged.fault = Some((refusal, format!("slot {slot}: {why}")));
                    format!("refused {}: {why}", refusal.number())
                }
            }
        };
        judged.lines.push(format!("slot {slot}: {line}"));
        if matches!(form, Form::Erased) {
            erased = erased.or(Some(slot));
        }
    }
    judged.summary.nodes = judged.fault.is_none().then_some(known.len());
    judged
}

impl Judged {
    pub fn summary(&self) -> String {
        self.summary.to_string()
    }

    /// The failure that shows the first fault of a journal that is refused so.
    fn failure(self, refusal: Refusal) -> Failure {
        match self.fault {
            Some((refusal, shown)) => Failure::Fault { refusal, shown },
            None => Failure::Refused(refusal),
        }
    }
}

fn wrong_length(journal: &[u8]) -> Failure {
    Failure::Fault { refusal: Refusal::WrongLength, shown: file::length(journal) }
}

/// The nodes of a journal, or the failure that shows its first fault.
pub fn nodes(journal: &[u8]) -> Result<Vec<u64>, Failure> {
    let mut words = [0; NODES];
    match pasa::recover_journal(journal, &mut words) {
        Ok(nodes) => Ok(words[..nodes].to_vec()),
        Err(Refusal::WrongLength) => Err(wrong_length(journal)),
        Err(refusal) => Err(judge(journal).failure(refusal)),
    }
}

pub fn run(word: &OsStr, out: &mut dyn Write) -> Done {
    let journal = file::read(word)?;
    let recovered = pasa::recover_journal(&journal, &mut [0; NODES]);
    if recovered == Err(Refusal::WrongLength) {
        return Err(wrong_length(&journal));
    }
    let judged = judge(&journal);
    for line in &judged.lines {
        writeln!(out, "{line}")?;
    }
    writeln!(out, "{}", judged.summary())?;
    recovered.map(|_| ()).map_err(|refusal| judged.failure(refusal))
}
