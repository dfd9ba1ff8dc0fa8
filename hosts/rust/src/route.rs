//! The path between two addresses.
use crate::refusal::done;
use crate::{sys, Address, Refusal};

/// The most addresses of a path.
pub const PATH_MOST: usize = 126;

/// Lists the path from the first address to the second at the front of the words, at most [`PATH_MOST`] of them, and answers its hops, one
/// fewer than the addresses listed. Refusal: 10.
pub fn path(first: Address, second: Address, words: &mut [u64]) -> Result<usize, Refusal> {
    let answer = unsafe { sys::pasa_path(first.number(), second.number(), words.as_mut_ptr(), words.len()) };
    done(answer.refusal, || answer.hops as usize)
}
