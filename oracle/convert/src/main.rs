//! Modules of any radix written as X: the proved library against a second writing of the rule, in one process.
//! `oracle/convert/convert --help` tells how it is called.
mod check;
mod rule;

use check::{check, Counts};
use oracle::generate::{folder, Generator};
use std::path::Path;
use std::process::ExitCode;
use std::sync::atomic::{AtomicU64, Ordering};
use std::time::Instant;

/// Threads of a run.
const THREADS: usize = 2;
/// Differences of a part that are printed.
const PRINTED: u64 = 20;
/// So many generated texts belong to a number: the first of them with a wanted header is its module.
const TRIES: u64 = 64;
/// The stack of a thread.
const STACK: usize = 8 << 20;

/// The index of a header's radix, of Q, D and X; none without one.
fn radix(text: &[u8]) -> Option<usize> {
    match gatecobalt::header(text).ok()?.radix {
        8 => Some(0),
        10 => Some(1),
        _ => Some(2),
    }
}

/// The module of a number with an octal or decimal header.
fn old_stock(generator: &Generator, number: u64) -> Vec<u8> {
    let texts = (0..TRIES).map(|of| generator.module(number * TRIES + of).1);
    texts
        .into_iter()
        .find(|text| matches!(radix(text), Some(0 | 1)))
        .expect("one of so many is old stock")
}

/// Runs a part of so many cases on all threads, and answers how many differ.
fn part(name: &str, count: u64, module: impl Fn(u64) -> Vec<u8> + Sync) -> u64 {
    let (start, next) = (Instant::now(), AtomicU64::new(0));
    let share = || {
        let mut counts = Counts::default();
        loop {
            let number = next.fetch_add(1, Ordering::Relaxed);
            if number >= count {
                return counts;
            }
            let text = module(number);
            if let Some(radix) = radix(&text) {
                counts.radices[radix] += 1;
            }
            if let Err(what) = check(&text, &mut counts) {
                counts.differences += 1;
                if counts.differences <= PRINTED {
                    println!("differs: {name} {number}: {what}");
                }
            }
        }
    };
    let mut sum = Counts::default();
    std::thread::scope(|scope| {
        let start = || {
            std::thread::Builder::new()
                .stack_size(STACK)
                .spawn_scoped(scope, share)
                .expect("a thread")
        };
        let threads: Vec<_> = (0..THREADS).map(|_| start()).collect();
        threads.into_iter().for_each(|thread| sum.add(&thread.join().expect("a thread ends")));
    });
    sum.print(name, start.elapsed().as_secs_f64());
    sum.differences
}

/// The real modules, generated old stock, and generated texts of every kind.
fn compare(real: &[Vec<u8>], seed: u64, modules: u64, texts: u64) -> bool {
    let generator = Generator::new(seed, real.to_vec());
    let mut differences = part("real", real.len() as u64, |number| real[number as usize].clone());
    differences += part("Q and D", modules, |number| old_stock(&generator, number));
    differences += part("any", texts, |number| generator.module(number).1);
    println!("differences: {differences}");
    differences == 0
}

/// Runs what the words ask for; none if they are not of the form.
fn run(words: &[&str]) -> Option<std::io::Result<bool>> {
    let [path, seed, modules, texts] = words else { return None };
    let (seed, modules, texts) = (seed.parse().ok()?, modules.parse().ok()?, texts.parse().ok()?);
    let real = folder(Path::new(path))
        .map(|all| all.into_iter().map(|(_, text)| text).collect::<Vec<_>>());
    Some(real.map(|real| compare(&real, seed, modules, texts)))
}

/// Exits with 1 if anything differs, with 2 if the words are not of the form.
fn main() -> ExitCode {
    let words: Vec<String> = std::env::args().skip(1).collect();
    match run(&words.iter().map(String::as_str).collect::<Vec<_>>()) {
        Some(Ok(true)) => ExitCode::SUCCESS,
        Some(Ok(false)) => ExitCode::FAILURE,
        Some(Err(error)) => {
            eprintln!("convert: {error}");
            ExitCode::FAILURE
        }
        None => ExitCode::from(2),
    }
}
