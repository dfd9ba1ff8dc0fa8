//! The picture as an SVG document: plain shapes and text with their colours as attributes, on a ground of its own, so that every viewer shows the
//! same, a dark one too. No script, no style sheet, no font and no other file is needed.
use super::layout::{self, BASELINE, BLOCK, MARGIN};
use crate::describe::Kind;
use pasa::Address;
use std::collections::HashMap;
use std::io::{self, Write};

const GROUND: &str = "#ffffff";
const INK: &str = "#0f172a";
const PALE: &str = "#64748b";
const LINK: &str = "#94a3b8";
const LEVEL: &str = "#cbd5e1";

/// Where a link turns from its parent's column to the child's row it has this radius.
const TURN: usize = 5;

/// Writes the picture of a hall's nodes, which are in the order of a plan's text: each behind its parent.
pub fn draw(nodes: &[Address], out: &mut dyn Write) -> io::Result<()> {
    let (width, height) = layout::size(nodes);
    writeln!(out, r#"<?xml version="1.0" encoding="UTF-8"?>"#)?;
    write!(out, r#"<svg xmlns="http://www.w3.org/2000/svg" width="{width}" height="{height}" viewBox="0 0 {width} {height}""#)?;
    writeln!(out, r#" font-family="monospace" font-size="13" fill="{INK}">"#)?;
    writeln!(out, "<title>{}</title>", title(nodes))?;
    writeln!(out, r#"<rect width="{width}" height="{height}" fill="{GROUND}"/>"#)?;
    head(nodes, out)?;
    legend(out)?;
    levels(nodes, out)?;
    links(nodes, out)?;
    rulers(nodes, out)?;
    for (row, address) in nodes.iter().enumerate() {
        node(*address, layout::y(row), out)?;
    }
    writeln!(out, "</svg>")
}

fn count(nodes: &[Address], kind: Kind) -> usize {
    nodes.iter().filter(|address| Kind::of(**address) == kind).count()
}

fn deepest(nodes: &[Address]) -> usize {
    nodes.iter().map(|address| address.depth() as usize).max().unwrap_or(0)
}

fn many(count: usize, what: &str) -> String {
    format!("{count} {what}{}", if count == 1 { "" } else { "s" })
}

fn title(nodes: &[Address]) -> String {
    format!("Hall of {}", many(nodes.len(), "node"))
}

fn counts(nodes: &[Address]) -> String {
    let (routers, hosts) = (count(nodes, Kind::Router), count(nodes, Kind::Host));
    format!("the root, {} and {}, down to depth {}", many(routers, "router"), many(hosts, "host"), deepest(nodes))
}

/// The title and the counts.
fn head(nodes: &[Address], out: &mut dyn Write) -> io::Result<()> {
    writeln!(out, r#"<g font-family="sans-serif">"#)?;
    writeln!(out, r#"<text x="{MARGIN}" y="36" font-size="20" font-weight="bold">{}</text>"#, title(nodes))?;
    writeln!(out, r#"<text x="{MARGIN}" y="58">{}</text>"#, counts(nodes))?;
    writeln!(out, "</g>")
}

/// What the signs and the two kinds of digits mean.
fn legend(out: &mut dyn Write) -> io::Result<()> {
    let y = 80;
    let baseline = y + BASELINE;
    writeln!(out, r#"<g font-family="sans-serif">"#)?;
    for (kind, x) in [(Kind::Root, MARGIN + 6), (Kind::Router, MARGIN + 70), (Kind::Host, MARGIN + 146)] {
        sign(kind, x, y, out)?;
        writeln!(out, r#"<text x="{}" y="{baseline}">{kind}</text>"#, x + 12)?;
    }
    let x = MARGIN + 216;
    write!(out, r#"<text x="{x}" y="{baseline}" font-family="monospace">"#)?;
    digits("10", "110", out)?;
    writeln!(out, "</text>")?;
    writeln!(out, r#"<text x="{}" y="{baseline}">an address: the parent's bits, then the last step</text>"#, x + 48)?;
    writeln!(out, "</g>")
}

/// A line down the picture for each level, in a piece for each block of rows: on paper each page has the pieces that it shows, and not the dashes of
/// all pages.
fn levels(nodes: &[Address], out: &mut dyn Write) -> io::Result<()> {
    let (blocks, deepest) = (nodes.len().div_ceil(BLOCK), deepest(nodes));
    writeln!(out, r#"<g stroke="{LEVEL}" stroke-dasharray="2 3">"#)?;
    for block in 0..blocks {
        let is_last = block + 1 == blocks;
        let (top, bottom) = (layout::ruler_y(block), if is_last { layout::bottom(nodes.len()) } else { layout::ruler_y(block + 1) });
        for depth in 0..=deepest {
            let x = layout::x(depth);
            writeln!(out, r#"<path d="M{x} {top}V{bottom}"/>"#)?;
        }
    }
    writeln!(out, "</g>")
}

/// The number of each level on its line, before every block of rows, on a ground that keeps it free of the lines.
fn rulers(nodes: &[Address], out: &mut dyn Write) -> io::Result<()> {
    let deepest = deepest(nodes);
    writeln!(out, r#"<g font-family="sans-serif" font-size="11" fill="{PALE}" text-anchor="middle">"#)?;
    for block in 0..nodes.len().div_ceil(BLOCK) {
        let y = layout::ruler_y(block);
        writeln!(out, r#"<text x="{MARGIN}" y="{}" text-anchor="start">depth</text>"#, y + BASELINE)?;
        for depth in 0..=deepest {
            let x = layout::x(depth);
            write!(out, r#"<rect x="{}" y="{}" width="18" height="14" fill="{GROUND}"/>"#, x - 9, y - 7)?;
            writeln!(out, r#"<text x="{x}" y="{}">{depth}</text>"#, y + BASELINE)?;
        }
    }
    writeln!(out, "</g>")
}

/// From each node's parent down its column and then to the right. A link begins where the one to the child before it turns off: so no line lies on
/// another one, which a browser would draw as often as a node has children.
fn links(nodes: &[Address], out: &mut dyn Write) -> io::Result<()> {
    let mut ends: HashMap<Address, usize> = HashMap::new();
    writeln!(out, r#"<g stroke="{LINK}" stroke-width="2" fill="none">"#)?;
    for (row, address) in nodes.iter().enumerate() {
        let y = layout::y(row);
        ends.insert(*address, y);
        if let Some(parent) = address.parent() {
            let (x, to_x, turn) = (layout::x(parent.depth() as usize), layout::x(address.depth() as usize), y - TURN);
            let from = ends.insert(parent, turn).expect("each node is behind its parent");
            writeln!(out, r#"<path d="M{x} {from}V{turn}q0 {TURN} {TURN} {TURN}H{to_x}"/>"#)?;
        }
    }
    writeln!(out, "</g>")
}

/// The sign of a kind: each has a shape, a colour and a filling of its own.
fn sign(kind: Kind, x: usize, y: usize, out: &mut dyn Write) -> io::Result<()> {
    match kind {
        Kind::Root => writeln!(out, r##"<path d="M{} {y}L{x} {}L{} {y}L{x} {}Z" fill="#b45309"/>"##, x - 8, y - 8, x + 8, y + 8),
        Kind::Router => writeln!(out, r##"<rect x="{}" y="{}" width="12" height="12" rx="2" fill="#1d4ed8"/>"##, x - 6, y - 6),
        Kind::Host => writeln!(out, r##"<circle cx="{x}" cy="{y}" r="5" fill="{GROUND}" stroke="#047857" stroke-width="2"/>"##),
    }
}

/// The digits of an address: its parent's are pale, those of its own step are bold.
fn digits(parent: &str, step: &str, out: &mut dyn Write) -> io::Result<()> {
    if !parent.is_empty() {
        write!(out, r#"<tspan fill="{PALE}">{parent}</tspan>"#)?;
    }
    write!(out, r#"<tspan font-weight="bold">{step}</tspan>"#)
}

/// A node's sign and address, and what a browser shows under the pointer.
fn node(address: Address, y: usize, out: &mut dyn Write) -> io::Result<()> {
    let (kind, depth) = (Kind::of(address), address.depth() as usize);
    let (whole, parent) = (address.to_string(), address.parent().map(|parent| parent.to_string()));
    writeln!(out, "<g><title>{whole}: {kind}, depth {depth}, parent {}</title>", parent.as_deref().unwrap_or("none"))?;
    sign(kind, layout::x(depth), y, out)?;
    let baseline = y + BASELINE;
    let step = parent.as_ref().map_or(0, String::len);
    write!(out, r#"<text x="{}" y="{baseline}">"#, layout::address_x(depth))?;
    digits(&whole[..step], &whole[step..], out)?;
    write!(out, "</text>")?;
    if let Some(x) = layout::number_x(depth, whole.len()) {
        let bits = whole.len();
        write!(out, r#"<text x="{x}" y="{baseline}" font-family="sans-serif" font-size="11" fill="{PALE}">{bits} bits</text>"#)?;
    }
    writeln!(out, "</g>")
}
