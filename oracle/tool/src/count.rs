//! Counts of the Rust's answers over the real modules and over generated ones, kind by kind.
use crate::{generator, real_modules, Failure};
use oracle::generate::KINDS;
use oracle::{class, expected, read, Answer, Class, Expected};
use std::time::{Duration, Instant};

/// Counts for one kind of texts.
#[derive(Default)]
struct Counts {
    texts: usize,
    read: usize,
    panicked: usize,
    no_header: usize,
    too_large: usize,
    not_text: usize,
    accepted: usize,
    refused: [usize; 14],
    untold: usize,
    to_end: usize,
    with_fixups: usize,
    classes: [usize; 5],
}

/// The column of a fixup's class.
fn column(mode: u16) -> usize {
    match class(mode) {
        Some(Class::Addr19) => 0,
        Some(Class::Addr11) => 1,
        Some(Class::Addr24) => 2,
        Some(Class::Addr16) => 3,
        _ => 4,
    }
}

impl Counts {
    /// Counts one text.
    fn take(&mut self, text: &[u8], answer: &Answer) {
        self.texts += 1;
        match answer {
            Answer::Read(tables, kept) => {
                self.read += 1;
                let left = &text[tables.rest..];
                self.to_end += usize::from(matches!(left, b"" | b"\n" | b"\r\n"));
                let fixups = kept.iter().flat_map(|area| &area.fixups);
                fixups.clone().for_each(|fixup| self.classes[column(fixup.mode)] += 1);
                self.with_fixups += usize::from(fixups.count() > 0);
            }
            Answer::Panicked(..) | Answer::PanickedParsing => self.panicked += 1,
            Answer::NoHeader => self.no_header += 1,
            Answer::TooLarge(_) => self.too_large += 1,
            Answer::NotText => self.not_text += 1,
        }
        match expected(text, answer) {
            Expected::Accepted => self.accepted += 1,
            Expected::Refused(number, _) => self.refused[usize::from(number)] += 1,
            Expected::Untold => self.untold += 1,
        }
    }

    /// Adds other counts to these.
    fn add(&mut self, other: &Counts) {
        self.texts += other.texts;
        self.read += other.read;
        self.panicked += other.panicked;
        self.no_header += other.no_header;
        self.too_large += other.too_large;
        self.not_text += other.not_text;
        self.accepted += other.accepted;
        self.untold += other.untold;
        self.to_end += other.to_end;
        self.with_fixups += other.with_fixups;
        self.refused.iter_mut().zip(other.refused).for_each(|(sum, more)| *sum += more);
        self.classes.iter_mut().zip(other.classes).for_each(|(sum, more)| *sum += more);
    }

    /// Prints the counts as one line of the table.
    fn print(&self, name: &str) {
        print!("{name:13} {:7} {:7} {:6}", self.texts, self.read, self.panicked);
        print!(" {:6} {:5} {:5}", self.no_header, self.too_large, self.not_text);
        print!(" {:7} {:7} {:7}", self.to_end, self.with_fixups, self.accepted);
        self.refused[2..].iter().for_each(|count| print!(" {count:5}"));
        print!(" {:6}", self.untold);
        self.classes.iter().for_each(|count| print!(" {count:7}"));
        println!();
    }
}

/// The table's first line.
fn heading() {
    print!("{:13} {:>7} {:>7} {:>6}", "kind", "texts", "read", "panic");
    print!(" {:>6} {:>5} {:>5}", "nohead", "large", "bytes");
    print!(" {:>7} {:>7} {:>7}", "to end", "fixups", "accept");
    (2..14).for_each(|number| print!(" {:>5}", format!("r{number}")));
    print!(" {:>6}", "untold");
    println!(" {:>7} {:>7} {:>7} {:>7} {:>7}", "Addr19", "Addr11", "Addr24", "Addr16", "Byte");
}

/// The Rust's answer and how long it took.
fn timed(text: &[u8], spent: &mut Duration) -> Answer {
    let start = Instant::now();
    let answer = read(text);
    *spent += start.elapsed();
    answer
}

/// Reads the real modules and so many generated ones, and prints the table.
pub fn count(seed: &str, count: &str) -> Result<(), Failure> {
    let (generator, mut spent, mut real) = (generator(seed)?, Duration::ZERO, Counts::default());
    for (_, text) in real_modules()? {
        real.take(&text, &timed(&text, &mut spent));
    }
    heading();
    real.print("real");
    eprintln!("real: {} texts read in {:.3} s", real.texts, spent.as_secs_f64());
    let mut kinds: Vec<_> = KINDS.iter().map(|(kind, _)| (kind, Counts::default())).collect();
    spent = Duration::ZERO;
    for number in 0..count.parse()? {
        let (kind, text) = generator.module(number);
        let answer = timed(&text, &mut spent);
        kinds[kind as usize].1.take(&text, &answer);
    }
    let mut all = Counts::default();
    for (kind, counts) in &kinds {
        counts.print(&format!("{kind:?}"));
        all.add(counts);
    }
    all.print("generated");
    eprintln!("generated: {} texts read in {:.3} s", all.texts, spent.as_secs_f64());
    Ok(())
}
