//! What changed between two modules: the proved library against a second writing of the rule, in one process, and its
//! cost. `oracle/changes/changes --help` tells how it is called.
mod bench;
mod change;
mod check;
mod read;
mod rule;

use change::changed;
use check::{check, Counts};
use oracle::generate::{folder, Generator, Random};
use read::Buffers;
use std::path::Path;
use std::process::ExitCode;
use std::sync::atomic::{AtomicU64, Ordering};
use std::time::Instant;

/// Threads of a run.
const THREADS: usize = 2;
/// Differences of a part that are printed.
const PRINTED: u64 = 20;
/// Every so many pairs are also asked with a short list and turned round.
const MORE: u64 = 4;

/// Runs a part of so many pairs on all threads, and answers how many differ.
fn part(name: &str, count: u64, pair: impl Fn(u64) -> (Vec<u8>, Vec<u8>) + Sync) -> u64 {
    let (start, next) = (Instant::now(), AtomicU64::new(0));
    let share = || {
        let (mut counts, mut buffers) = (Counts::default(), Buffers::new());
        loop {
            let number = next.fetch_add(1, Ordering::Relaxed);
            if number >= count {
                return counts;
            }
            let (older, newer) = pair(number);
            if let Err(what) = check(&older, &newer, &mut buffers, &mut counts, number % MORE == 0) {
                counts.differences += 1;
                if counts.differences <= PRINTED {
                    println!("differs: {name} {number}: {what}");
                }
            }
        }
    };
    let mut sum = Counts::default();
    std::thread::scope(|scope| {
        let threads: Vec<_> = (0..THREADS).map(|_| scope.spawn(share)).collect();
        threads.into_iter().for_each(|thread| sum.add(&thread.join().expect("a thread ends")));
    });
    sum.print(name, start.elapsed().as_secs_f64());
    sum.differences
}

/// The real modules against changed copies and against themselves, and generated modules against changed ones.
fn compare(real: &[Vec<u8>], seed: u64, count: u64, copies: u64) -> bool {
    let generator = Generator::new(seed, real.to_vec());
    let random = |number: u64| Random::new(!seed, number);
    let mut differences = part("real, themselves", real.len() as u64, |number| {
        let text = &real[number as usize];
        (text.clone(), text.clone())
    });
    differences += part("real, changed", real.len() as u64 * copies, |number| {
        let text = &real[number as usize % real.len()];
        (text.clone(), changed(text, &mut random(number)))
    });
    differences += part("real, neighbours", real.len() as u64 - 1, |number| {
        (real[number as usize].clone(), real[number as usize + 1].clone())
    });
    differences += part("generated, changed", count, |number| {
        let text = generator.module(number).1;
        let other = changed(&text, &mut random(number));
        (text, other)
    });
    println!("differences: {differences}");
    differences == 0
}

/// Runs what the words ask for; none if they are not of the form.
fn run(words: &[&str]) -> Option<std::io::Result<bool>> {
    let real = |path: &str| folder(Path::new(path)).map(|all| all.into_iter().map(|(_, text)| text).collect::<Vec<_>>());
    Some(match words {
        ["compare", path, seed, count, copies] => {
            let (seed, count, copies) = (seed.parse().ok()?, count.parse().ok()?, copies.parse().ok()?);
            real(path).map(|real| compare(&real, seed, count, copies))
        }
        ["bench", path] => real(path).map(|real| bench::bench(&real)),
        _ => return None,
    })
}

/// Exits with 1 if anything differs, with 2 if the words are not of the form.
fn main() -> ExitCode {
    let words: Vec<String> = std::env::args().skip(1).collect();
    match run(&words.iter().map(String::as_str).collect::<Vec<_>>()) {
        Some(Ok(true)) => ExitCode::SUCCESS,
        Some(Ok(false)) => ExitCode::FAILURE,
        Some(Err(error)) => {
            eprintln!("changes: {error}");
            ExitCode::FAILURE
        }
        None => ExitCode::from(2),
    }
}
