//! The unchanged Rust reader of object modules, held as functions over plain types, so that a
//! program can compare its answers with another reader's in one process. The source is compiled
//! as it stands; what it takes from its neighbours is stood for by plain rows.
mod captured;
mod ended;
mod expected;
mod find;
mod frames;
pub mod generate;
mod listing;
mod quiet;
mod rows;

pub use ended::ended_stop;
pub use expected::*;
pub use find::probe::{class, mode_step, on_site_size, target};
pub use find::probe::{places, readers, Place, Places};
pub use frames::{read_frame, write_frame};
pub use listing::listing;
pub use rows::*;

/// Kept areas larger than this together are not placed: the Rust would take memory for them all.
pub const LARGEST: u64 = 1 << 20;

/// The kept areas of a placed module.
fn kept_areas(tables: &Tables, segments: Vec<find::Segment>) -> Vec<Kept> {
    let indices = (0..).zip(&tables.areas).filter(|(_, area)| area.kept());
    let indices: Vec<usize> = indices.map(|(index, _)| index).collect();
    assert!(indices.len() == segments.len(), "another count of kept areas");
    let kept = |(index, segment): (usize, find::Segment)| Kept {
        index,
        base: segment.base,
        image: segment.image,
        symbols: segment.symbols,
        fixups: segment.fixups,
    };
    indices.into_iter().zip(segments).map(kept).collect()
}

/// The Rust's plain reading of one module: its parsing, then its conversion of that module alone.
pub fn read(text: &[u8]) -> Answer {
    captured::ready();
    let Ok(text) = std::str::from_utf8(text) else {
        return Answer::NotText;
    };
    let (parsed, rest) = match quiet::quietly(|| find::probe::parse(text)) {
        Ok(Some(parsed)) => parsed,
        Ok(None) => return Answer::NoHeader,
        Err(_) => return Answer::PanickedParsing,
    };
    let tables = parsed.tables(rest);
    if tables.kept_size() > LARGEST {
        return Answer::TooLarge(tables);
    }
    captured::made();
    match quiet::quietly(|| parsed.convert()) {
        Ok(segments) => {
            let kept = kept_areas(&tables, segments);
            Answer::Read(tables, kept)
        }
        Err(line) => Answer::Panicked(find::cause(line), captured::made(), tables),
    }
}
