//! Demand 3 by brute force: a text cut after any byte gives exactly what the records that end
//! inside the cut give, and is called finished exactly at a record's end.
use crate::check::Checker;
use crate::counts::Counts;
use crate::lent::{Read, Reading, Rows, Verdict};
use gatecobalt::{Refusal, Refused};
use oracle::{expected, places, read};

/// A copy of the rows of one reading.
struct Copied {
    areas: Vec<u32>,
    symbols: Vec<u32>,
    values: Vec<u8>,
    masks: Vec<u8>,
    fixups: Vec<u32>,
}

impl Copied {
    /// Copies rows.
    fn new(rows: Rows) -> Self {
        Copied {
            areas: rows.areas.to_vec(),
            symbols: rows.symbols.to_vec(),
            values: rows.values.to_vec(),
            masks: rows.masks.to_vec(),
            fixups: rows.fixups.to_vec(),
        }
    }

    /// Whether these are the same rows.
    fn same(&self, rows: &Rows) -> bool {
        let held = Rows {
            areas: &self.areas,
            symbols: &self.symbols,
            values: &self.values,
            masks: &self.masks,
            fixups: &self.fixups,
        };
        held == *rows
    }
}

/// The places behind the records of a text whose every record is ended: the header's line end, then
/// one line an entry, then two lines a pair. Told from the Rust's count of records.
fn record_ends(text: &[u8]) -> Option<Vec<usize>> {
    let places = places(std::str::from_utf8(text).ok()?)?;
    let start = text.iter().position(|byte| !b" \t\r\n".contains(byte))?;
    let feeds: Vec<usize> = (start..text.len()).filter(|at| text[*at] == b'\n').collect();
    let entries = places.ignored + places.areas.len() + places.symbols.len();
    let pairs = places.pairs.len() + places.pages;
    let lines = (0..=entries).chain((1..=pairs).map(|pair| entries + 2 * pair));
    lines.map(|line| feeds.get(line).map(|at| at + 1)).collect()
}

impl Checker {
    /// The ended reading of the part up to a record's end, held against the Rust.
    fn at_end(&mut self, part: &[u8], counts: &mut Counts) -> Result<Read, &'static str> {
        let got = self.buffers.read(Reading::Ended, part, 5)?;
        let answer = read(part);
        let told = expected(part, &answer);
        if matches!(got, Ok((_, verdict)) if verdict != Verdict::Finished) {
            return Err("not finished at a record's end");
        }
        self.held(got, part, &answer, told, part.len(), counts)?;
        Ok(got)
    }

    /// The cuts from a record's end to before the next one: the same answer, stopped.
    fn between(
        &mut self,
        text: &[u8],
        end: usize,
        next: usize,
        counts: &mut Counts,
    ) -> Result<(), &'static str> {
        let whole = self.at_end(&text[..end], counts)?;
        let copied = Copied::new(self.buffers.rows());
        let told = whole.map(|(found, _)| (found, Verdict::Stopped(end)));
        counts.cuts += 1;
        for cut in end + 1..next {
            let got = self.buffers.read(Reading::Ended, &text[..cut], 5)?;
            counts.answer(&got);
            counts.cuts += 1;
            if got != told || !copied.same(&self.buffers.rows()) {
                return Err("a cut is not its whole records");
            }
        }
        Ok(())
    }

    /// Every cut of a text that the ended reading accepts, by the ended reading.
    pub fn cuts(&mut self, text: &[u8], counts: &mut Counts) -> Result<(), &'static str> {
        let Ok((_, verdict)) = self.buffers.read(Reading::Ended, text, 5)? else {
            return Ok(());
        };
        counts.texts += 1;
        let stop = match verdict {
            Verdict::Finished => text.len(),
            Verdict::Stopped(place) => place,
        };
        let ends = record_ends(&text[..stop]).ok_or("records without ends")?;
        if ends.last() != Some(&stop) {
            return Err("the last record ends elsewhere");
        }
        for cut in 0..ends[0] {
            let got = self.buffers.read(Reading::Ended, &text[..cut], 5)?;
            counts.answer(&got);
            counts.cuts += 1;
            if got != Err(Refused { refusal: Refusal::NoHeader, place: 0 }) {
                return Err("a cut in the header is not refused with 4");
            }
        }
        let nexts = ends[1..].iter().copied().chain([text.len() + 1]);
        ends.iter().zip(nexts).try_for_each(|(end, next)| self.between(text, *end, next, counts))
    }

    /// Every cut of a text by both readings, each held against the Rust.
    pub fn cuts_beside(&mut self, text: &[u8], counts: &mut Counts) -> Result<(), &'static str> {
        for cut in 0..=text.len() {
            self.text(&text[..cut], counts)?;
        }
        counts.cuts += text.len() as u64 + 1;
        Ok(())
    }
}
