//! Where a text stops being a plan, as its writer sees it: the line with that byte, and a mark under it.

/// So many columns of a line are shown at most, the signs for what is cut off among them.
const COLUMNS: usize = 76;
const CUT: &str = "..";

/// The place by its number and by what stands there, the line of the text that holds it, and the mark. It is the first line, since a newline is
/// a fault itself: then the mark stands behind the line, as it does where the text ends early.
pub fn show(text: &[u8], place: usize) -> String {
    let behind = &text[place..];
    let end = place + behind.iter().position(|byte| *byte == b'\n').unwrap_or(behind.len());
    format!("at place {place}, {}\n{}", found(text.get(place)), marked(&text[..end], place))
}

fn found(byte: Option<&u8>) -> String {
    match byte {
        None => "where it ends".to_string(),
        Some(byte) if is_shown(*byte) => format!("found '{}'", char::from(*byte)),
        Some(byte) => format!("found byte 0x{byte:02x}"),
    }
}

/// Whether a byte has a sign of one column.
fn is_shown(byte: u8) -> bool {
    byte == b' ' || byte.is_ascii_graphic()
}

/// The bytes, a column each.
fn columns(bytes: &[u8]) -> String {
    bytes.iter().map(|byte| if is_shown(*byte) { char::from(*byte) } else { '?' }).collect()
}

/// A line, or what stands about the column where it is too long, and under it the mark in that column.
fn marked(line: &[u8], column: usize) -> String {
    let end = (column.saturating_sub(COLUMNS / 2) + COLUMNS).min(line.len());
    let begin = end.saturating_sub(COLUMNS);
    let before = if begin > 0 { CUT } else { "" };
    let behind = if end < line.len() { CUT } else { "" };
    let shown = columns(&line[begin + before.len()..end - behind.len()]);
    let indent = column - begin;
    format!("{before}{shown}{behind}\n{:indent$}^", "")
}
