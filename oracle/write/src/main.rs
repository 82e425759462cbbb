//! Modules written back: the proved library against a second writing of the rule, in one process, and its cost.
//! `oracle/write/write --help` tells how it is called.
mod bench;
mod check;
mod random;
mod rule;

use check::{check_module, check_rows, rows_of, Counts};
use gatecobalt::Reader;
use oracle::generate::{folder, Generator, Random};
use random::Owned;
use std::path::Path;
use std::process::ExitCode;
use std::sync::atomic::{AtomicU64, Ordering};
use std::time::Instant;

/// Threads of a run.
const THREADS: usize = 2;
/// Differences of a part that are printed.
const PRINTED: u64 = 20;
/// Longer modules are not changed for rows.
const SMALL: usize = 4000;

/// Runs a part of so many cases on all threads, and answers how many differ.
fn part(
    name: &str,
    count: u64,
    case: impl Fn(u64, &mut Counts) -> Result<(), &'static str> + Sync,
) -> u64 {
    let (start, next) = (Instant::now(), AtomicU64::new(0));
    let share = || {
        let mut counts = Counts::default();
        loop {
            let number = next.fetch_add(1, Ordering::Relaxed);
            if number >= count {
                return counts;
            }
            if let Err(what) = case(number, &mut counts) {
                counts.differences += 1;
                if counts.differences <= PRINTED {
                    println!("differs: {name} {number}: {what}");
                }
            }
        }
    };
    let mut sum = Counts::default();
    std::thread::scope(|scope| {
        let threads: Vec<_> = (0..THREADS).map(|_| scope.spawn(share)).collect();
        threads.into_iter().for_each(|thread| sum.add(&thread.join().expect("a thread ends")));
    });
    sum.print(name, start.elapsed().as_secs_f64());
    sum.differences
}

/// Rows of a small module, or none.
fn some_rows(generator: &Generator, number: u64) -> Option<Owned> {
    let text = generator.module(number).1;
    (text.len() <= SMALL).then(|| rows_of(&mut Reader::new(), &text)).flatten()
}

/// The rows of a number: a module's with changes, with another module's pairs, or any numbers.
fn rows(generator: &Generator, seed: u64, number: u64) -> Owned {
    let mut random = Random::new(!seed, number);
    match (random.below(8), some_rows(generator, number)) {
        (0 | 1, _) | (_, None) => Owned::any(&mut random),
        (2, Some(one)) => match some_rows(generator, number + 1) {
            Some(other) => one.with_pairs(&other),
            None => one,
        },
        (_, Some(one)) => one.changed(&mut random),
    }
}

/// The real modules, generated ones, and rows.
fn compare(real: &[Vec<u8>], seed: u64, modules: u64, sets: u64) -> bool {
    let generator = Generator::new(seed, real.to_vec());
    let mut differences = part("real", real.len() as u64, |number, counts| {
        check_module(&real[number as usize], counts)
    });
    differences += part("generated", modules, |number, counts| {
        check_module(&generator.module(number).1, counts)
    });
    differences += part("rows", sets, |number, counts| {
        counts.texts += 1;
        check_rows(&rows(&generator, seed, number).rows(), counts).map(|_| ())
    });
    println!("differences: {differences}");
    differences == 0
}

/// Runs what the words ask for; none if they are not of the form.
fn run(words: &[&str]) -> Option<std::io::Result<bool>> {
    let real = |path: &str| {
        folder(Path::new(path)).map(|all| all.into_iter().map(|(_, text)| text).collect::<Vec<_>>())
    };
    Some(match words {
        ["compare", path, seed, modules, sets] => {
            let (seed, modules, sets) =
                (seed.parse().ok()?, modules.parse().ok()?, sets.parse().ok()?);
            real(path).map(|real| compare(&real, seed, modules, sets))
        }
        ["bench", path] => real(path).map(|real| bench::bench(&real)),
        _ => return None,
    })
}

/// Exits with 1 if anything differs, with 2 if the words are not of the form.
fn main() -> ExitCode {
    let words: Vec<String> = std::env::args().skip(1).collect();
    match run(&words.iter().map(String::as_str).collect::<Vec<_>>()) {
        Some(Ok(true)) => ExitCode::SUCCESS,
        Some(Ok(false)) => ExitCode::FAILURE,
        Some(Err(error)) => {
            eprintln!("rewrite: {error}");
            ExitCode::FAILURE
        }
        None => ExitCode::from(2),
    }
}
