//! A run in parts, each shared by two threads.
use crate::check::Checker;
use crate::counts::Counts;
use crate::lent::Buffers;
use crate::targets;
use oracle::generate::Random;
use std::path::PathBuf;
use std::sync::atomic::{AtomicU64, Ordering};
use std::time::Instant;

/// Threads of a run.
const THREADS: usize = 2;
/// Differences of a part that are printed.
const PRINTED: u64 = 20;
/// One text in so many is read with short buffers too.
const SHORT: u64 = 256;
/// Targets of any mode that are compared beside each generated text.
const TARGETS: usize = 4;

/// What a step answers: its text, and what differs.
type Step = (Vec<u8>, Result<(), &'static str>);

/// A run with its seed, and where texts that differ are saved.
pub struct Run {
    seed: u64,
    saved: PathBuf,
}

impl Run {
    /// A run; differing texts go to the folder that the script names.
    pub fn new(seed: u64) -> Self {
        let saved = std::env::var("COMPARE_SAVED").unwrap_or_else(|_| "differences".into());
        Run { seed, saved: saved.into() }
    }

    /// Prints a difference and saves its text.
    fn tell(&self, part: &str, number: u64, text: &[u8], what: &str) {
        let file = self.saved.join(format!("{part}-{}-{number}.rel", self.seed));
        let saved = std::fs::create_dir_all(&self.saved).and_then(|()| std::fs::write(&file, text));
        println!("differs: {part} {number}: {what} ({} bytes, {})", text.len(), file.display());
        if let Err(error) = saved {
            println!("not saved: {error}");
        }
    }

    /// One thread's share of a part.
    fn share(
        &self,
        part: &str,
        next: &AtomicU64,
        count: u64,
        step: &(impl Fn(&mut Checker, u64, &mut Counts) -> Step + Sync),
    ) -> Counts {
        let mut counts = Counts::default();
        let mut checker = Checker { buffers: Buffers::new(), random: Random::new(self.seed, 0) };
        loop {
            let number = next.fetch_add(1, Ordering::Relaxed);
            if number >= count {
                return counts;
            }
            checker.random = Random::new(!self.seed, number);
            let (text, result) = step(&mut checker, number, &mut counts);
            if let Err(what) = result {
                counts.differences += 1;
                if counts.differences <= PRINTED {
                    self.tell(part, number, &text, what);
                }
            }
        }
    }

    /// Runs a part of so many texts, prints its counts, and answers how many differ.
    pub fn part(
        &self,
        name: &str,
        count: u64,
        step: impl Fn(&mut Checker, u64, &mut Counts) -> Step + Sync,
    ) -> u64 {
        let (start, next) = (Instant::now(), AtomicU64::new(0));
        let mut counts = Counts::default();
        std::thread::scope(|scope| {
            let share = || self.share(name, &next, count, &step);
            let threads: Vec<_> = (0..THREADS).map(|_| scope.spawn(share)).collect();
            for thread in threads {
                counts.add(&thread.join().expect("a thread ends"));
            }
        });
        counts.print(name, start.elapsed().as_secs_f64());
        counts.differences
    }
}

impl Checker {
    /// What is tried beside a generated text: targets of any mode, and now and then short buffers.
    pub fn extras(
        &mut self,
        number: u64,
        text: &[u8],
        counts: &mut Counts,
    ) -> Result<(), &'static str> {
        counts.targets += targets::any(&mut self.random, TARGETS)? as u64;
        if number % SHORT == 0 {
            self.short(text, counts)?;
        }
        Ok(())
    }
}
