//! The recorded sample that the program `replay` is held to: small generated texts of every kind and
//! with every refusal, each with the Rust's answers. No real module's text is among them.
use crate::check::taken;
use crate::told::{owned_rows, OwnedRows};
use oracle::generate::{Generator, KINDS};
use oracle::{ended_stop, expected, read, Answer, Expected};
use std::io::Result;
use std::path::Path;

/// Texts of one kind.
const OF_A_KIND: usize = 70;
/// The longest text taken for its kind.
const SHORT: usize = 320;
/// Generated texts that are looked at.
const SEEN: u64 = 60_000;
/// Refusals that need a large text: the smallest text of each is taken.
const LARGE: [u8; 7] = [2, 5, 6, 7, 8, 9, 13];

/// An answer as it is recorded: refusal, place and sum.
type Told = (u32, u32, u64);

/// The sum over an answer: it turns by seven bits before each number is added.
fn sum(finished: bool, counts: [usize; 6], rows: &OwnedRows) -> u64 {
    let words = |row: &[u32]| row.iter().map(|word| u64::from(*word)).collect::<Vec<_>>();
    let bytes = |row: &[u8]| row.iter().map(|byte| u64::from(*byte)).collect::<Vec<_>>();
    let counts: Vec<u64> = counts.iter().map(|count| *count as u64).collect();
    let (areas, symbols, fixups) = (words(&rows.areas), words(&rows.symbols), words(&rows.fixups));
    let all = [counts, areas, symbols, bytes(&rows.values), bytes(&rows.masks), fixups];
    let mix = |sum: u64, number: &u64| sum.rotate_left(7).wrapping_add(*number);
    all.iter().flatten().fold(u64::from(finished), mix)
}

/// The recorded form of what the Rust answers to a text that stands for one of this length, which
/// ends at `end`. None where the Rust does not tell which symbol a fixup means.
fn told(text: &[u8], answer: &Answer, says: Expected, end: usize, length: usize) -> Option<Told> {
    match (says, answer) {
        (Expected::Refused(number, place), _) => Some((u32::from(number), place as u32, 0)),
        (Expected::Accepted, Answer::Read(tables, kept)) => {
            let rows = owned_rows(text, tables, kept)?;
            let fixups = kept.iter().map(|area| area.fixups.len()).sum();
            let (areas, symbols) = (tables.areas.len(), tables.symbols.len());
            let lines = tables.pairs.len();
            let counts = [areas, symbols, lines, kept.len(), rows.values.len(), fixups];
            let finished = end == length;
            let place = if finished { 0 } else { end as u32 };
            Some((0, place, sum(finished, counts, &rows)))
        }
        _ => None,
    }
}

/// Both answers to a text: the plain reading's, and the ended reading's.
fn answers(text: &[u8]) -> Option<(Told, Told)> {
    let answer = read(text);
    let says = expected(text, &answer);
    let rest = answer.tables().map_or(0, |tables| tables.rest);
    let plain = told(text, &answer, says, rest, text.len())?;
    if matches!(says, Expected::Refused(2..=4, _)) {
        return Some((plain, plain));
    }
    let Some(stop) = ended_stop(text, rest) else {
        return Some((plain, (4, 0, 0)));
    };
    if !taken(&answer) {
        return Some((plain, (18, 0, 0)));
    }
    let part = &text[..stop];
    let shorter = read(part);
    let ended = told(part, &shorter, expected(part, &shorter), stop, text.len())?;
    Some((plain, ended))
}

/// The texts of the sample.
fn texts(seed: u64) -> Vec<Vec<u8>> {
    let generator = Generator::new(seed, Vec::new());
    let mut chosen = Vec::new();
    let mut kinds = [0; KINDS.len()];
    let mut large: [Option<Vec<u8>>; LARGE.len()] = Default::default();
    for number in 0..SEEN {
        let (kind, text) = generator.module(number);
        if text.len() <= SHORT && kinds[kind as usize] < OF_A_KIND {
            kinds[kind as usize] += 1;
            chosen.push(text);
            continue;
        }
        // Of a header that both readings take.
        let answer = read(&text);
        if !taken(&answer) {
            continue;
        }
        if let Expected::Refused(refusal, _) = expected(&text, &answer) {
            let at = LARGE.iter().position(|large| *large == refusal);
            let smaller = |held: &Vec<u8>| text.len() < held.len();
            if let Some(at) = at.filter(|at| large[*at].as_ref().is_none_or(smaller)) {
                large[at] = Some(text);
            }
        }
    }
    chosen.extend(large.into_iter().flatten());
    chosen
}

/// Writes the sample's `stdin`, and the `stdout` that the program has to write for it.
pub fn write(seed: u64, folder: &Path) -> Result<bool> {
    let (mut sample, mut count, mut refused) = (Vec::new(), 0, [0; 19]);
    for text in texts(seed) {
        let Some((plain, ended)) = answers(&text) else {
            continue;
        };
        sample.extend((text.len() as u32).to_le_bytes());
        for (number, place, sum) in [plain, ended] {
            sample.extend(number.to_le_bytes());
            sample.extend(place.to_le_bytes());
            sample.extend(sum.to_le_bytes());
            refused[number as usize] += 1;
            count += 1;
        }
        sample.extend(text);
    }
    std::fs::write(folder.join("stdin"), &sample)?;
    std::fs::write(folder.join("stdout"), format!("{count} answers, 0 differ\n"))?;
    println!("{count} answers in {} bytes; by refusal, 0 for accepted:", sample.len());
    let lines = refused.iter().enumerate();
    lines.for_each(|(number, count)| println!("  {number}: {count}"));
    Ok(true)
}
