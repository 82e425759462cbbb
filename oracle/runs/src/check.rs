//! One text: the plain and the ended reading against the Rust's answer.
use crate::counts::Counts;
use crate::lent::{Buffers, Read, Reading, Verdict};
use crate::told::Told;
use gatecobalt::{Refusal, Refused};
use oracle::generate::Random;
use oracle::{ended_stop, expected, read, Answer, Expected, Radix};

/// Whether the ended reading takes the header that the Rust read: X only.
pub fn taken(answer: &Answer) -> bool {
    answer.tables().is_some_and(|tables| matches!(tables.format.radix, Radix::Hex))
}

/// Where a reading that was accepted ended.
fn end_of(verdict: Verdict, text: &[u8]) -> usize {
    match verdict {
        Verdict::Finished => text.len(),
        Verdict::Stopped(place) => place,
    }
}

/// Whether a verdict says finished exactly where no byte is left.
fn sound(verdict: Verdict, text: &[u8]) -> bool {
    verdict != Verdict::Stopped(text.len())
}

/// One thread's work on texts.
pub struct Checker {
    pub buffers: Buffers,
    pub random: Random,
}

impl Checker {
    /// Holds a reading against what the Rust told of a text, whose own end is `end`.
    pub fn held(
        &mut self,
        got: Read,
        text: &[u8],
        answer: &Answer,
        told: Expected,
        end: usize,
        counts: &mut Counts,
    ) -> Result<(), &'static str> {
        counts.answer(&got);
        match (got, told, answer) {
            (Err(Refused { refusal, place }), Expected::Refused(told, at), _) => {
                let same = refusal.number() == u32::from(told) && place == at;
                same.then_some(()).ok_or("another refusal")
            }
            (Ok((read, verdict)), Expected::Accepted, Answer::Read(tables, kept)) => {
                let whole = Told { text, tables, kept };
                let rows = self.buffers.rows();
                let compared = whole.compare(&read, &rows, &mut self.random)?;
                counts.compared(&read, compared);
                let ended = end_of(verdict, text) == end && sound(verdict, text);
                ended.then_some(()).ok_or("another end")
            }
            (Ok(_), _, _) => Err("read, and not refused"),
            (Err(_), _, _) => Err("refused, and not read"),
        }
    }

    /// Both readings of a text.
    pub fn text(&mut self, text: &[u8], counts: &mut Counts) -> Result<(), &'static str> {
        counts.texts += 1;
        let answer = read(text);
        let told = expected(text, &answer);
        let rest = answer.tables().map_or(0, |tables| tables.rest);
        let plain = self.buffers.read(Reading::Plain, text, 5)?;
        self.held(plain, text, &answer, told, rest, counts)?;
        self.ended(text, &answer, told, counts)
    }

    /// The ended reading: 2 and 3 are the plain reading's; then a header without its line end is 4,
    /// one of Q or D 18; otherwise it reads what the Rust reads of the text up to its stop.
    fn ended(
        &mut self,
        text: &[u8],
        answer: &Answer,
        told: Expected,
        counts: &mut Counts,
    ) -> Result<(), &'static str> {
        let got = self.buffers.read(Reading::Ended, text, 5)?;
        let whole = matches!(told, Expected::Refused(2 | 3, _));
        let stop = answer.tables().and_then(|tables| ended_stop(text, tables.rest));
        if whole || answer.tables().is_none() {
            return self.held(got, text, answer, told, 0, counts);
        }
        let Some(stop) = stop else {
            return self.held(got, text, answer, Expected::Refused(4, 0), 0, counts);
        };
        if !taken(answer) {
            return self.held(got, text, answer, Expected::Refused(18, 0), 0, counts);
        }
        let finished = matches!(got, Ok((_, Verdict::Finished)));
        if got.is_ok() && finished != (stop == text.len()) {
            return Err("another verdict");
        }
        let part = &text[..stop];
        let got = got.map(|(read, verdict)| (read, part_of(verdict, stop)));
        if stop > answer.tables().map_or(0, |tables| tables.rest) {
            return self.held(got, part, answer, told, stop, counts);
        }
        let shorter = read(part);
        let told = expected(part, &shorter);
        self.held(got, part, &shorter, told, stop, counts)
    }

    /// Refusal 1: a text with one buffer too short, by both readings.
    pub fn short(&mut self, text: &[u8], counts: &mut Counts) -> Result<(), &'static str> {
        for short in 0..5 {
            for reading in [Reading::Plain, Reading::Ended] {
                let got = self.buffers.read(reading, text, short)?;
                counts.answer(&got);
                if got != Err(Refused { refusal: Refusal::ShortBuffer, place: 0 }) {
                    return Err("a short buffer is not refused");
                }
            }
        }
        Ok(())
    }
}

/// The verdict of a reading that stopped, seen from the part before the stop.
fn part_of(verdict: Verdict, stop: usize) -> Verdict {
    if verdict == Verdict::Stopped(stop) {
        Verdict::Finished
    } else {
        verdict
    }
}
