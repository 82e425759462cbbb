//! The readings, without and with their segments, beside the Rust's, which makes segments always.
use crate::old;
use crate::texts::Set;
use crate::turns::{heading, in_turn, line, Pair, Spread};
use gatecobalt::{NotWhole, Reader, Records};
use std::hint::black_box;

/// Our readings.
pub const OURS: [&str; 4] = ["plain", "ended", "plain+segments", "ended+segments"];

/// Positions and fixups of records.
fn counts(records: Records) -> (usize, usize) {
    (records.counts().positions, records.counts().fixups)
}

/// Positions and fixups of a text by one of the readers, to be compared and not left out.
fn read(which: &str, reader: &mut Reader, text: &[u8]) -> (usize, usize) {
    let found = match which {
        "rust" => std::str::from_utf8(text).ok().and_then(old::read),
        "plain" => reader.plain(text).ok().map(|plain| counts(plain.records())),
        "ended" => match reader.whole(text) {
            Ok(module) => Some(counts(module.records())),
            Err(NotWhole::NotEqual(read)) => Some(counts(read.as_read())),
            Err(_) => None,
        },
        "plain+segments" => reader.plain(text).ok().map(|plain| {
            black_box(plain.plain_segments(0));
            counts(plain.records())
        }),
        "ended+segments" => match reader.whole(text) {
            Ok(module) => {
                black_box(module.segments(0));
                Some(counts(module.records()))
            }
            Err(NotWhole::NotEqual(read)) => {
                black_box(read.partial_segments(0));
                Some(counts(read.as_read()))
            }
            Err(_) => None,
        },
        _ => None,
    };
    found.unwrap_or((0, 0))
}

/// All texts of a set so many times; answers the sum of what was found.
pub fn pass(which: &str, reader: &mut Reader, set: &Set, times: usize) -> (usize, usize) {
    let mut found = (0, 0);
    for _ in 0..times {
        for text in &set.texts {
            let (positions, fixups) = black_box(read(which, reader, black_box(text)));
            found = (found.0 + positions, found.1 + fixups);
        }
    }
    found
}

/// One of ours over a set, in turn with the Rust.
fn beside(which: &str, set: &Set) -> Pair {
    let (mut mine, mut other) = (Reader::new(), Reader::new());
    let mut ours = || {
        black_box(pass(which, &mut mine, set, 1));
    };
    let mut rust = || {
        black_box(pass("rust", &mut other, set, 1));
    };
    in_turn(&mut ours, &mut rust)
}

/// A line of the table: megabytes (of 10^6 bytes) a second.
fn told(which: &str, set: &Set) {
    let Pair { ours, rust, ratio } = beside(which, set);
    let speed = |spent: Spread| spent.map(|seconds| set.bytes() as f64 / seconds / 1e6);
    line(&set.name, which, speed(ours), speed(rust), ratio);
}

/// The table, and whether all readers found the same.
pub fn table(sets: &[Set]) -> bool {
    let mut reader = Reader::new();
    let mut same = true;
    heading("MB/s", "reading");
    for set in sets {
        let rust = pass("rust", &mut reader, set, 1);
        for which in OURS {
            same &= pass(which, &mut reader, set, 1) == rust;
            told(which, set);
        }
    }
    same
}
