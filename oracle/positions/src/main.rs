//! Follows every position of modules to the line that wrote it, by the proved library, and holds the answer
//! to the image and to a second writing of the rule. `oracle/positions/positions --help` tells how it is called.
mod second;

use gatecobalt::{explain, NotWhole, Reader, Records, Refusal, Refused};
use oracle::generate::{folder, Generator};
use std::path::Path;
use std::process::ExitCode;
use std::sync::atomic::{AtomicU64, Ordering};

/// Threads of a run.
const THREADS: usize = 2;
/// Generated texts of which the counts are printed together.
const SHARE: u64 = 10_000;

/// What was asked and what came out.
#[derive(Default)]
struct Counts {
    texts: u64,
    refused: u64,
    stopped: u64,
    positions: u64,
    written: u64,
    overwritten: u64,
    partly: u64,
    absent: u64,
    differences: u64,
}

impl Counts {
    /// The sum of both.
    fn add(&mut self, other: &Counts) {
        self.texts += other.texts;
        self.refused += other.refused;
        self.stopped += other.stopped;
        self.positions += other.positions;
        self.written += other.written;
        self.overwritten += other.overwritten;
        self.partly += other.partly;
        self.absent += other.absent;
        self.differences += other.differences;
    }

    /// A line of them.
    fn print(&self, part: &str) {
        println!(
            "{part}: {} texts, {} refused, {} stopped; {} positions, {} written, {} by several lines, {} partly known; {} asked that are not there; {} differences",
            self.texts, self.refused, self.stopped, self.positions, self.written, self.overwritten, self.partly, self.absent, self.differences
        );
    }
}

/// A position that is not there is 20.
fn absent(text: &[u8], id: u32, position: u32, counts: &mut Counts) -> Result<(), String> {
    counts.absent += 1;
    let told = explain(text, id, position);
    let expected = Err(Refused { refusal: Refusal::NoPosition, place: 0 });
    (told == expected).then_some(()).ok_or(format!("{id} {position:04X}: {told:?} for 20"))
}

/// Every position of the records of a text, of which the reading took the bytes up to a place.
fn positions(text: &[u8], end: usize, records: Records, counts: &mut Counts) -> Result<(), String> {
    let part = std::str::from_utf8(&text[..end]).map_err(|error| error.to_string())?;
    let writers = second::writers(part).ok_or("the second writing does not read it")?;
    if writers.len() != records.kept().count() {
        return Err("another count of kept areas".into());
    }
    for (area, lines) in records.kept().zip(&writers) {
        let id = area.id as u32;
        for (position, line) in lines.iter().enumerate() {
            let told = explain(text, id, position as u32).map_err(|refused| refused.to_string())?;
            counts.positions += 1;
            let image = (area.values[position], area.masks[position]);
            let found = told.map_or((0, 0), |line| (line.value, line.mask));
            if found != image || told.map(|line| line.place) != line.last {
                return Err(format!(
                    "{id} {position:04X}: {told:?} for {image:02X?} by {:?}",
                    line.last
                ));
            }
            counts.written += u64::from(line.count > 0);
            counts.overwritten += u64::from(line.count > 1);
            counts.partly += u64::from(image.1 == 0x1F);
        }
        absent(text, id, lines.len() as u32, counts)?;
        absent(text, id, u32::MAX, counts)?;
    }
    absent(text, writers.len() as u32, 0, counts)?;
    absent(text, u32::MAX, 0, counts)
}

/// One text.
fn check(reader: &mut Reader, text: &[u8], counts: &mut Counts) -> Result<(), String> {
    counts.texts += 1;
    match reader.whole(text) {
        Ok(module) => positions(text, text.len(), module.records(), counts),
        Err(NotWhole::NotEqual(read)) => positions(text, text.len(), read.as_read(), counts),
        Err(NotWhole::Stopped(stopped)) => {
            counts.stopped += 1;
            positions(text, stopped.place(), stopped.up_to_there(), counts)
        }
        Err(NotWhole::Refused(refused)) => {
            counts.refused += 1;
            let told = [explain(text, 0, 0), explain(text, u32::MAX, u32::MAX)];
            (told == [Err(refused), Err(refused)])
                .then_some(())
                .ok_or(format!("{told:?} for {refused}"))
        }
        Err(other) => Err(format!("{other}: nothing here compares this")),
    }
}

/// A part of so many texts on two threads; answers how many differ.
fn part(name: &str, count: u64, text: impl Fn(u64) -> Vec<u8> + Sync) -> u64 {
    let next = AtomicU64::new(0);
    let share = || {
        let (mut counts, mut reader) = (Counts::default(), Reader::new());
        loop {
            let number = next.fetch_add(1, Ordering::Relaxed);
            if number >= count {
                return counts;
            }
            if let Err(what) = check(&mut reader, &text(number), &mut counts) {
                counts.differences += 1;
                println!("differs: {name} {number}: {what}");
            }
        }
    };
    let mut counts = Counts::default();
    std::thread::scope(|scope| {
        let threads: Vec<_> = (0..THREADS).map(|_| scope.spawn(share)).collect();
        for thread in threads {
            counts.add(&thread.join().expect("a thread ends"));
        }
    });
    counts.print(name);
    counts.differences
}

/// Both parts: the real modules of a folder, and so many generated and damaged texts; or those from one on alone.
fn run(path: &Path, seed: u64, count: u64, from: Option<u64>) -> std::io::Result<bool> {
    let real: Vec<Vec<u8>> = folder(path)?.into_iter().map(|(_, text)| text).collect();
    let mut differences = 0;
    if from.is_none() {
        differences += part("real", real.len() as u64, |number| real[number as usize].clone());
    }
    let generator = Generator::new(seed, real.clone());
    for first in (from.unwrap_or(0)..count).step_by(SHARE as usize) {
        let some = SHARE.min(count - first);
        differences += part(&format!("generated from {first}"), some, |number| {
            generator.module(first + number).1
        });
    }
    println!("differences: {differences}");
    Ok(differences == 0)
}

/// Exits with 1 if anything differs, with 2 for wrong use.
fn main() -> ExitCode {
    let words: Vec<String> = std::env::args().skip(1).collect();
    let number = |word: &String| word.parse::<u64>().ok();
    let (Some(path), [seed, count, from @ ..]) = (words.first(), words.get(1..).unwrap_or(&[]))
    else {
        return ExitCode::from(2);
    };
    let (Some(seed), Some(count)) = (number(seed), number(count)) else { return ExitCode::from(2) };
    match run(Path::new(path), seed, count, from.first().and_then(number)) {
        Ok(true) => ExitCode::SUCCESS,
        Ok(false) => ExitCode::FAILURE,
        Err(error) => {
            eprintln!("positions: {error}");
            ExitCode::FAILURE
        }
    }
}
