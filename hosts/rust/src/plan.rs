//! Hall plans.
use crate::{sys, Refusal};
use core::error::Error;
use core::fmt;

/// The most nodes of a plan, the root counted.
pub const PLAN_NODES: usize = 4096;

/// The most bytes of a plan's text.
pub const PLAN_BYTES: usize = 32_768;

/// Why a plan was refused: by which refusal, and with 13 also where its text stops being a plan.
#[derive(Clone, Copy, Debug, PartialEq, Eq, Hash)]
pub struct PlanRefusal {
    refusal: Refusal,
    place: usize,
}

impl PlanRefusal {
    /// The refusal.
    pub fn refusal(self) -> Refusal {
        self.refusal
    }

    /// With refusal 13 the place, counted from 0, of the first byte with which the text stops being the start of any text of the grammar, or
    /// the text's length where it ends early. No other refusal has a place.
    pub fn place(self) -> Option<usize> {
        (self.refusal == Refusal::BadPlan).then_some(self.place)
    }
}

impl fmt::Display for PlanRefusal {
    fn fmt(&self, f: &mut fmt::Formatter<'_>) -> fmt::Result {
        match self.place() {
            Some(place) => write!(f, "{}, at place {place}", self.refusal),
            None => write!(f, "{}", self.refusal),
        }
    }
}

impl Error for PlanRefusal {}

impl From<PlanRefusal> for Refusal {
    fn from(refused: PlanRefusal) -> Refusal {
        refused.refusal
    }
}

/// Reads a hall plan: lists the addresses of its nodes at the front of the words in the order of the text, the root first and a router before
/// what its group holds, at most [`PLAN_NODES`] of them, and answers their number. The rest of the words stays as it was. Refusals: 14 (more
/// than [`PLAN_BYTES`] bytes), 13, 14 (more than [`PLAN_NODES`] nodes), 3, 10.
///
/// ```
/// use pasa::{read_plan, Refusal, PLAN_NODES};
///
/// let mut words = [0; PLAN_NODES];
/// let nodes = read_plan(b"R(R(H)H)", &mut words)?;
/// assert_eq!(words[..nodes], [0b1, 0b10, 0b101, 0b11]);
///
/// let refused = read_plan(b"R(R(H)h)", &mut words).unwrap_err();
/// assert_eq!((refused.refusal(), refused.place()), (Refusal::BadPlan, Some(6)));
/// # Ok::<(), pasa::PlanRefusal>(())
/// ```
pub fn read_plan(text: &[u8], words: &mut [u64]) -> Result<usize, PlanRefusal> {
    let answer = unsafe { sys::pasa_plan_read(text.as_ptr(), text.len(), words.as_mut_ptr(), words.len()) };
    answered(answer, text.len(), words.len())
}

/// What an answer says of a text and words of these lengths. Nodes without a word, no nodes, or a place outside the text stop the program: they
/// are no answer of this archive's.
fn answered(answer: sys::Plan, text: usize, words: usize) -> Result<usize, PlanRefusal> {
    match Refusal::of(answer.refusal) {
        None => {
            assert!((1..=words).contains(&answer.nodes), "a plan in {words} words has 1 to {words} nodes, not {}", answer.nodes);
            Ok(answer.nodes)
        }
        Some(refusal) => {
            assert!(answer.place <= text, "a place in {text} bytes is 0 to {text}, not {}", answer.place);
            Err(PlanRefusal { refusal, place: answer.place })
        }
    }
}

#[cfg(test)]
mod tests {
    use super::*;
    use std::string::ToString;

    /// What is made of an answer to a text of 8 bytes and 4 words.
    fn answer(nodes: usize, place: usize, refusal: u8) -> Result<usize, PlanRefusal> {
        answered(sys::Plan { nodes, place, refusal }, 8, 4)
    }

    #[test]
    fn a_plan_is_read_by_refusal_0_alone() {
        assert_eq!(answer(4, 0, 0), Ok(4));
        for number in 1..=u8::MAX {
            assert_eq!(answer(4, 0, number).unwrap_err().refusal().number(), number);
        }
    }

    #[test]
    fn the_place_is_that_of_13_alone() {
        let refused = answer(0, 8, 13).unwrap_err();
        assert_eq!(refused.place(), Some(8));
        assert_eq!(refused.to_string(), "refused 13: a plan's text is outside the grammar, at place 8");
        let refused = answer(0, 8, 14).unwrap_err();
        assert_eq!(refused.place(), None);
        let text = "refused 14: a plan has too many bytes, a plan or a journal too many nodes, or an NSA payload length is above 65,787";
        assert_eq!(refused.to_string(), text);
        assert_eq!(Refusal::from(refused), Refusal::TooMany);
    }

    #[test]
    fn numbers_that_no_plan_has_stop() {
        for (nodes, place, refusal) in [(0, 0, 0), (5, 0, 0), (usize::MAX, 0, 0), (0, 9, 13), (0, usize::MAX, 13)] {
            assert!(std::panic::catch_unwind(|| answer(nodes, place, refusal)).is_err(), "{nodes} {place} {refusal}");
        }
    }
}
