//! Counts of comparisons, and the differences found.
use crate::answers::{port, rust, Reader, READERS};
use crate::ported::{self, Form};

/// The comparisons of one reader.
#[derive(Clone, Copy, Default)]
struct Count {
    cases: u64,
    taken: u64,
    differ: u64,
}

/// The comparisons of every reader.
#[derive(Default)]
pub struct Tally {
    counts: [Count; READERS.len()],
    reasons: Count,
    shown: usize,
}

impl Tally {
    /// Asks both sides about a text.
    pub fn compare(&mut self, reader: Reader, form: Form, text: &str) {
        let (theirs, ours) =
            (rust::answer(reader, form, text), port::answer(reader, form, text.as_bytes()));
        let count = &mut self.counts[reader as usize];
        count.cases += 1;
        count.taken += u64::from(theirs.is_some());
        if theirs != ours {
            count.differ += 1;
            self.show(&format!(
                "{reader:?} {form:?} {text:?}: the Rust {theirs:?}, the port {ours:?}"
            ));
        }
    }

    /// Asks both sides about a number or a byte at every place of a text, and past its end.
    pub fn compare_places(&mut self, reader: Reader, form: Form, text: &str) {
        self.compare(reader, form, text);
        for at in 0..=text.len() + 1 {
            let row = match reader {
                Reader::Number => ported::number(text.as_bytes(), at, form.radix),
                _ => ported::byte(text.as_bytes(), at, form.radix),
            };
            let rest = text.get(at..).unwrap_or("");
            let theirs = rust::answer(reader, form, rest);
            let reason = reason_of(reader, form, rest);
            let place = at as u64 + theirs.map_or(0, |answer| answer.used);
            let value = theirs.map_or(0, |answer| answer.values[0]);
            self.reasons.cases += 1;
            self.reasons.taken += u64::from(reason == 0);
            if (row.reason, row.place, row.first) != (reason, place, value)
                || (reason == 0) != theirs.is_some()
            {
                self.reasons.differ += 1;
                self.show(&format!("{reader:?} {form:?} {text:?} at {at}: {theirs:?}, reason {reason}, the port {row:?}"));
            }
        }
    }

    /// The first differences are told.
    fn show(&mut self, words: &str) {
        self.shown += 1;
        if self.shown <= 20 {
            eprintln!("differs: {words}");
        }
    }

    /// A line for each reader that was asked: cases, how many the Rust takes, how many differ.
    pub fn print(&self, title: &str) {
        println!("{title}");
        for (reader, count) in READERS.iter().zip(&self.counts).filter(|(_, count)| count.cases > 0)
        {
            println!(
                "  {reader:?}: {} cases, {} taken, {} differ",
                count.cases, count.taken, count.differ
            );
        }
        if self.reasons.cases > 0 {
            let Count { cases, taken, differ } = self.reasons;
            println!("  numbers and bytes at every place, with reason: {cases} cases, {taken} taken, {differ} differ");
        }
    }

    /// All comparisons, and all differences.
    pub fn total(&self) -> (u64, u64) {
        let all = self.counts.iter().chain([&self.reasons]);
        all.fold((0, 0), |(cases, differ), count| (cases + count.cases, differ + count.differ))
    }
}

/// Why a number or a byte does not read: 1 no digit, 2 over 32 bits, 3 over 255, 0 where it reads.
fn reason_of(reader: Reader, form: Form, text: &str) -> u64 {
    let digits: Vec<u32> =
        text.chars().map_while(|letter| letter.to_digit(form.radix.into())).collect();
    if digits.is_empty() {
        return 1;
    }
    let held =
        |value: u64, digit: &u32| (value * u64::from(form.radix) + u64::from(*digit)).min(1 << 40);
    let value = digits.iter().fold(0, held);
    match reader {
        _ if value >= 1 << 32 => 2,
        Reader::Byte if value > 255 => 3,
        _ => 0,
    }
}
