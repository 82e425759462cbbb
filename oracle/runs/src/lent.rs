//! Lent buffers with guards: every element holds a pattern before a reading, and what a reading
//! may not touch has to hold it afterwards.
use gatecobalt::{rooms, widths, Counts, Lent, NotWhole, Refused};

/// Elements behind each lent buffer that no reading may touch.
const GUARD: usize = 64;

/// Which reading.
#[derive(Clone, Copy, Debug, PartialEq, Eq)]
pub enum Reading {
    Plain,
    Ended,
}

/// Whether a reading left bytes, as the library says it.
#[derive(Clone, Copy, Debug, PartialEq, Eq)]
pub enum Verdict {
    /// No byte is left.
    Finished,
    /// The place of the next byte.
    Stopped(usize),
}

/// A reading's counts and verdict, or its refusal.
pub type Read = Result<(Counts, Verdict), Refused>;

/// A reading into lent buffers.
fn read(reading: Reading, text: &[u8], lent: Lent) -> Read {
    match reading {
        Reading::Plain => lent.plain(text).map(|plain| {
            let verdict = plain.left_from().map_or(Verdict::Finished, Verdict::Stopped);
            (plain.records().counts(), verdict)
        }),
        Reading::Ended => match lent.whole(text) {
            Ok(module) => Ok((module.counts(), Verdict::Finished)),
            Err(NotWhole::Stopped(stopped)) => {
                Ok((stopped.up_to_there().counts(), Verdict::Stopped(stopped.place())))
            }
            // The H line's word is no part of what is compared here.
            Err(NotWhole::NotEqual(unequal)) => Ok((unequal.as_read().counts(), Verdict::Finished)),
            Err(NotWhole::Refused(refused)) => Err(refused),
            Err(other) => panic!("{other}: nothing here compares this"),
        },
    }
}

/// One buffer: what it holds now, its pattern, and how many elements are lent.
struct Guarded<T> {
    now: Vec<T>,
    pattern: Vec<T>,
    lent: usize,
    used: usize,
}

impl<T: Copy + PartialEq> Guarded<T> {
    /// A buffer of this room, filled with a pattern.
    fn new(room: usize, pattern: impl Fn(usize) -> T) -> Self {
        let pattern: Vec<T> = (0..room + GUARD).map(pattern).collect();
        Guarded { now: pattern.clone(), pattern, lent: room, used: 0 }
    }

    /// The part to lend.
    fn lend(&mut self, less: bool) -> &mut [T] {
        &mut self.now[..self.lent - usize::from(less)]
    }

    /// Whether all behind the used part is as it was.
    fn intact(&mut self, used: usize) -> bool {
        self.used = used;
        used <= self.lent && self.now[used..] == self.pattern[used..]
    }

    /// The used part.
    fn rows(&self) -> &[T] {
        &self.now[..self.used]
    }

    /// Lays the pattern over the used part again.
    fn clear(&mut self) {
        self.now[..self.used].copy_from_slice(&self.pattern[..self.used]);
    }
}

/// The five buffers of one thread.
pub struct Buffers {
    areas: Guarded<u32>,
    symbols: Guarded<u32>,
    values: Guarded<u8>,
    masks: Guarded<u8>,
    fixups: Guarded<u32>,
}

/// The rows that stand in the buffers.
#[derive(Clone, Copy, PartialEq, Eq, Debug)]
pub struct Rows<'a> {
    pub areas: &'a [u32],
    pub symbols: &'a [u32],
    pub values: &'a [u8],
    pub masks: &'a [u8],
    pub fixups: &'a [u32],
}

impl Buffers {
    /// Buffers of the library's rooms.
    pub fn new() -> Self {
        let rooms = rooms();
        let word = |at: usize| 0xA5A5_0000 ^ (at as u32).wrapping_mul(0x9E37_79B1);
        let byte = |at: usize| 0x5A ^ (at as u8).wrapping_mul(31);
        Buffers {
            areas: Guarded::new(rooms.areas, word),
            symbols: Guarded::new(rooms.symbols, word),
            values: Guarded::new(rooms.values, byte),
            masks: Guarded::new(rooms.masks, byte),
            fixups: Guarded::new(rooms.fixups, word),
        }
    }

    /// A reading into patterned buffers, of which `short` is one element too short if it is below
    /// 5. An error says what was touched that may not be.
    pub fn read(
        &mut self,
        reading: Reading,
        text: &[u8],
        short: usize,
    ) -> Result<Read, &'static str> {
        self.clear();
        let lent = Lent {
            areas: self.areas.lend(short == 0),
            symbols: self.symbols.lend(short == 1),
            values: self.values.lend(short == 2),
            masks: self.masks.lend(short == 3),
            fixups: self.fixups.lend(short == 4),
        };
        let read = read(reading, text, lent);
        let used = read.as_ref().map_or([0; 4], |(counts, _)| used(counts));
        let intact = self.areas.intact(used[0])
            & self.symbols.intact(used[1])
            & self.values.intact(used[2])
            & self.masks.intact(used[2])
            & self.fixups.intact(used[3]);
        if intact {
            Ok(read)
        } else {
            Err("a buffer was touched behind its rows, or on a refusal")
        }
    }

    /// The rows of the last reading.
    pub fn rows(&self) -> Rows<'_> {
        Rows {
            areas: self.areas.rows(),
            symbols: self.symbols.rows(),
            values: self.values.rows(),
            masks: self.masks.rows(),
            fixups: self.fixups.rows(),
        }
    }

    /// Lays the pattern over the rows of the last reading.
    fn clear(&mut self) {
        self.areas.clear();
        self.symbols.clear();
        self.values.clear();
        self.masks.clear();
        self.fixups.clear();
    }
}

/// The elements that so much takes: area rows, symbol rows, positions, fixup rows.
fn used(counts: &Counts) -> [usize; 4] {
    let widths = widths();
    [
        counts.areas * widths.area,
        counts.symbols * widths.symbol,
        counts.positions,
        counts.fixups * widths.fixup,
    ]
}
