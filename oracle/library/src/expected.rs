//! What document 01 says of a text by the plain reading, told from the Rust's answer.
use crate::find::probe::{parse, places, Places};
use crate::quiet::quietly;
use crate::rows::{Answer, Cause, Tables};

/// A text's answer by document 01.
#[derive(Clone, Copy, Debug, PartialEq, Eq)]
pub enum Expected {
    /// It is read, and every row is the Rust's.
    Accepted,
    /// It is refused with this number and place.
    Refused(u8, usize),
    /// The Rust panicked where no refusal stands for it.
    Untold,
}

/// The longest text.
pub const TEXT: usize = 65_536;
/// The most areas of a module.
pub const AREAS: usize = 64;
/// The most symbols of a module.
pub const SYMBOLS: usize = 1_024;
/// The most content bytes of a pair.
pub const CONTENT: usize = 256;
/// The most fragments of a pair.
pub const FRAGMENTS: usize = 64;
/// The most positions of all kept areas together.
pub const POSITIONS: usize = 65_536;
/// The most fixups of a module.
pub const FIXUPS: usize = 1_024;

/// 5 and 6, whichever line comes first.
fn entry_bound(places: &Places) -> Option<(u8, usize)> {
    let area = places.areas.get(AREAS).map(|place| (5, place.line));
    let symbol = places.symbols.get(SYMBOLS).map(|place| (6, place.line));
    area.into_iter().chain(symbol).min_by_key(|(_, line)| *line)
}

/// 7 and 8: the first pair that is too large, its content before its fragments.
fn pair_bound(tables: &Tables, places: &Places) -> Option<(u8, usize)> {
    let large = tables.pairs.iter().zip(&places.pairs).find_map(|(pair, at)| {
        let content = (pair.content.len() > CONTENT).then_some((7, *at));
        content.or((pair.fragments.len() > FRAGMENTS).then_some((8, *at)))
    });
    large
}

/// Whether the first pairs alone make the Rust panic or make more fixups than the bound.
fn fails(text: &str, pairs: usize) -> bool {
    let (parsed, _) = parse(text).expect("a text that was parsed before");
    let placed = quietly(|| parsed.first_pairs(pairs).convert());
    placed.map_or(true, |kept| kept.iter().map(|area| area.fixups.len()).sum::<usize>() > FIXUPS)
}

/// The first pair with which placing fails.
fn failing_pair(text: &str, count: usize) -> usize {
    let (mut fine, mut failing) = (0, count);
    while fine + 1 < failing {
        let middle = (fine + failing) / 2;
        if fails(text, middle) {
            failing = middle;
        } else {
            fine = middle;
        }
    }
    failing - 1
}

/// 10 to 13: which of them the placing met first.
fn placing(answer: &Answer) -> Result<u8, Expected> {
    match answer {
        Answer::Read(_, kept) => {
            let fixups: usize = kept.iter().map(|area| area.fixups.len()).sum();
            if fixups > FIXUPS {
                Ok(13)
            } else {
                Err(Expected::Accepted)
            }
        }
        Answer::Panicked(_, made, _) if *made > FIXUPS => Ok(13),
        Answer::Panicked(Cause::Entry, _, _) => Ok(10),
        Answer::Panicked(Cause::Symbol, _, _) => Ok(11),
        Answer::Panicked(Cause::Number, _, _) => Ok(12),
        _ => Err(Expected::Untold),
    }
}

/// Refusals 5 to 13 for a text with tables.
fn of_tables(text: &str, answer: &Answer, tables: &Tables) -> Expected {
    let places = places(text).expect("a text with a header");
    let counts = (places.areas.len(), places.symbols.len(), places.pairs.len());
    assert!(counts == (tables.areas.len(), tables.symbols.len(), tables.pairs.len()));
    let bound = entry_bound(&places).or_else(|| pair_bound(tables, &places));
    if let Some((number, place)) = bound {
        return Expected::Refused(number, place);
    }
    if tables.kept_size() > POSITIONS as u64 {
        return Expected::Refused(9, 0);
    }
    match placing(answer) {
        Ok(number) => {
            let pair = failing_pair(text, tables.pairs.len());
            Expected::Refused(number, places.pairs[pair])
        }
        Err(expected) => expected,
    }
}

/// What document 01 says of a text that the Rust answered so.
pub fn expected(text: &[u8], answer: &Answer) -> Expected {
    if text.len() > TEXT {
        return Expected::Refused(2, 0);
    }
    if let Some(high) = text.iter().position(|byte| *byte > 127) {
        return Expected::Refused(3, high);
    }
    let Ok(plain) = std::str::from_utf8(text) else {
        return Expected::Untold;
    };
    match answer {
        Answer::NoHeader => Expected::Refused(4, 0),
        _ => match answer.tables() {
            Some(tables) => of_tables(plain, answer, tables),
            None => Expected::Untold,
        },
    }
}
