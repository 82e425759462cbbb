//! Where the ended reading of a text stops, told from the Rust's plain reading.
use crate::find::probe::places;

/// The width of a line end at the start of these bytes; 0 for none.
fn line_end(bytes: &[u8]) -> usize {
    match bytes {
        [b'\n', ..] => 1,
        [b'\r', b'\n', ..] => 2,
        _ => 0,
    }
}

/// The place behind the last but `skip` line feeds.
fn line_start(text: &[u8], skip: usize) -> Option<usize> {
    let feeds = (0..text.len()).rev().filter(|at| text[*at] == b'\n');
    feeds.map(|at| at + 1).nth(skip)
}

/// Where the ended reading of a text stops, told from the Rust's plain reading: behind the last
/// line end if one stands behind all that was read, else before the last record, which then has
/// none. None if that is the header.
pub fn ended_stop(text: &[u8], rest: usize) -> Option<usize> {
    match line_end(&text[rest..]) {
        0 => {
            let places = places(std::str::from_utf8(text).ok()?)?;
            if places.pairs.len() + places.pages > 0 {
                line_start(&text[..rest], 1)
            } else if places.ignored + places.areas.len() + places.symbols.len() > 0 {
                line_start(&text[..rest], 0)
            } else {
                None
            }
        }
        width => Some(rest + width),
    }
}
