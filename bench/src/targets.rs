//! Targets of the real modules' fixups, and of fixups of every mode, beside the Rust's: the Rust by
//! its boxed function, as its user calls it, ours by mode, order and number.
use crate::old;
use crate::texts::Set;
use crate::turns::{heading, in_turn, line, Spread};
use gatecobalt::Reader;
use std::hint::black_box;

/// A question: the fixup, the bytes on site and their address.
struct Asked {
    mode: u32,
    big: bool,
    number: u32,
    bytes: [u8; 4],
    address: u64,
}

/// The Rust's function of each question.
type Functions = Vec<Box<dyn Fn(&[u8], usize) -> usize>>;

/// A number that depends on the one before it.
fn next(state: &mut u64) -> u64 {
    *state = state.wrapping_mul(6_364_136_223_846_793_005).wrapping_add(1_442_695_040_888_963_407);
    *state >> 24
}

/// A question of a fixup, with some bytes at some address.
fn asked(state: &mut u64, mode: u32, big: bool, number: u32) -> Asked {
    let bytes = (next(state) as u32).to_le_bytes();
    Asked { mode, big, number, bytes, address: next(state) % 0x1_0000 }
}

/// A question for each fixup of a set.
fn of_fixups(set: &Set) -> Vec<Asked> {
    let (mut reader, mut state, mut all) = (Reader::new(), 1, Vec::new());
    for text in &set.texts {
        if let Ok(module) = reader.whole(text) {
            let big = module.records().header().big;
            all.extend(
                module.records().fixups().map(|row| asked(&mut state, row.mode, big, row.number)),
            );
        }
    }
    all
}

/// Five questions for each mode.
fn of_modes() -> Vec<Asked> {
    let mut state = 2;
    (0..5 * 2048)
        .map(|at| {
            let number = next(&mut state) as u32 % 0x1_0000;
            asked(&mut state, at % 2048, at % 3 > 0, number)
        })
        .collect()
}

/// The sum of the answers of a way to ask.
fn sum(all: &[Asked], answer: impl Fn(usize, &Asked) -> u64) -> u64 {
    let answers = all.iter().enumerate().map(|(at, asked)| answer(at, black_box(asked)));
    black_box(answers.fold(0, u64::wrapping_add))
}

/// The Rust's sum.
fn by_rust(all: &[Asked], functions: &Functions) -> u64 {
    sum(all, |at, asked| functions[at](&asked.bytes, asked.address as usize) as u64)
}

/// Ours, the ported target.
fn ported(all: &[Asked]) -> u64 {
    sum(all, |_, Asked { mode, big, number, bytes, address }| {
        gatecobalt::target(*mode, *big, *number, *address, bytes).unwrap_or(0)
    })
}

/// Ours, the corrected target.
fn corrected(all: &[Asked]) -> u64 {
    sum(all, |_, Asked { mode, big, number, bytes, address }| {
        gatecobalt::corrected_target(*mode, *big, *number, *address, bytes).unwrap_or(0)
    })
}

/// Two lines of the table, and whether ours and the Rust's ported targets are the same.
fn lines(name: &str, all: &[Asked]) -> bool {
    let function =
        |asked: &Asked| old::function(asked.mode as u16, asked.big, asked.number as usize);
    let functions: Functions = all.iter().map(function).collect();
    for (which, ours) in [("ported", ported as fn(&[Asked]) -> u64), ("corrected", corrected)] {
        let mut mine = || {
            black_box(ours(all));
        };
        let mut other = || {
            black_box(by_rust(all, &functions));
        };
        let pair = in_turn(&mut mine, &mut other);
        let each = |spent: Spread| spent.map(|seconds| seconds * 1e9 / all.len() as f64);
        line(name, which, each(pair.ours), each(pair.rust), pair.ratio);
    }
    ported(all) == by_rust(all, &functions)
}

/// The table, and whether the ported targets are the Rust's.
pub fn table(real: &Set) -> bool {
    heading("ns a call", "target");
    let fixups = of_fixups(real);
    let same = lines(&format!("{} real fixups", fixups.len()), &fixups);
    lines("all modes", &of_modes()) && same
}
