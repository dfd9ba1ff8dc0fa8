//! Where the parts of the picture stand, in pixels.
//!
//! Depth goes from left to right, and every node has a row of its own, in the order of the text, as in a list of files. An address has up to 64
//! digits: beside its node, with nothing to the right of it, each fits whole, whatever the shape of the hall. Levels in rows one below the other,
//! with the nodes of a level side by side, would leave a broad level no room for addresses. So a broad hall makes the picture tall and a deep
//! one makes it wide, no text meets another, and a row of the picture is a line of `hall plan`.
use pasa::Address;

/// Left free, and right, and below.
pub const MARGIN: usize = 24;

/// The height of a row, and what a step of depth goes to the right.
const ROW: usize = 20;
const STEP: usize = 26;

/// The digits of the usual monospaced fonts are no wider in the picture's size.
const DIGIT: usize = 8;

/// From the middle of a node's sign to its address.
const BESIDE: usize = 13;

/// An address of so many digits has their number behind it, since nobody counts them; the number needs so much.
const UNCOUNTED: usize = 16;
const NUMBER: usize = 56;

/// Above the first row there are the title, the counts and the legend.
const HEAD: usize = 112;

/// Left of the root there is the word for the levels.
const CAPTION: usize = 56;

/// The title and the legend need so much.
const LEAST_WIDTH: usize = 680;

/// Before each so many rows there is one that names the levels again, so that a part of a tall picture names them too.
pub const BLOCK: usize = 32;

/// The baseline of a text whose middle is to stand at a height.
pub const BASELINE: usize = 4;

/// The middle of each node of a level, and of the line that marks the level.
pub fn x(depth: usize) -> usize {
    MARGIN + CAPTION + depth * STEP
}

fn middle_of(row: usize) -> usize {
    HEAD + row * ROW + ROW / 2
}

/// The middle of the row of a node, by the node's number in the plan.
pub fn y(node: usize) -> usize {
    middle_of(node + node / BLOCK + 1)
}

/// The middle of the row that names the levels before a block.
pub fn ruler_y(block: usize) -> usize {
    middle_of(block * (BLOCK + 1))
}

/// Where an address begins beside its node.
pub fn address_x(depth: usize) -> usize {
    x(depth) + BESIDE
}

/// Where the number of an address's digits begins behind it, if it has one.
pub fn number_x(depth: usize, digits: usize) -> Option<usize> {
    (digits >= UNCOUNTED).then_some(address_x(depth) + DIGIT * (digits + 1))
}

fn end_x(depth: usize, digits: usize) -> usize {
    number_x(depth, digits).map_or(address_x(depth) + DIGIT * digits, |x| x + NUMBER)
}

/// The lowest point that something stands at.
pub fn bottom(nodes: usize) -> usize {
    y(nodes - 1) + ROW / 2
}

/// The width and the height of the picture.
pub fn size(nodes: &[Address]) -> (usize, usize) {
    let end = |address: &Address| end_x(address.depth() as usize, address.bit_length() as usize);
    let widest = nodes.iter().map(end).max().unwrap_or(0);
    (widest.max(LEAST_WIDTH) + MARGIN, bottom(nodes.len()) + MARGIN)
}
