//! Rows that are to be written: a module's own with some numbers changed, another module's, and plain numbers.
use gatecobalt::{Pairs, Rows};
use oracle::generate::Random;

/// Rows of their own.
#[derive(Clone)]
pub struct Owned {
    pub big: bool,
    pub width: u32,
    pub text: Vec<u8>,
    pub areas: Vec<u32>,
    pub symbols: Vec<u32>,
    pub pairs: Vec<u32>,
    pub content: Vec<u8>,
    pub fragments: Vec<u32>,
    pub counts: [usize; 3],
}

impl Owned {
    /// The rows of a reading.
    pub fn of(rows: &Rows, pairs: &Pairs) -> Owned {
        Owned {
            big: rows.big,
            width: rows.width,
            text: rows.text.to_vec(),
            areas: rows.areas.to_vec(),
            symbols: rows.symbols.to_vec(),
            pairs: pairs.pairs.clone(),
            content: pairs.content.clone(),
            fragments: pairs.fragments.clone(),
            counts: [rows.area_count, rows.symbol_count, rows.pair_count],
        }
    }

    /// As they are lent.
    pub fn rows(&self) -> Rows<'_> {
        Rows {
            big: self.big,
            width: self.width,
            text: &self.text,
            areas: &self.areas,
            area_count: self.counts[0],
            symbols: &self.symbols,
            symbol_count: self.counts[1],
            pairs: &self.pairs,
            pair_count: self.counts[2],
            content: &self.content,
            fragments: &self.fragments,
        }
    }

    /// Changes something.
    fn change(&mut self, random: &mut Random) {
        match random.below(14) {
            0 => self.big = !self.big,
            1 => self.width = random.range(1, 5) as u32,
            2 if !self.text.is_empty() => {
                let at = random.below(self.text.len());
                self.text[at] = random.pick(b"aA \t\r\n\x7F\x80\xC3\xFF0");
            }
            3 => self.text.truncate(self.text.len() - self.text.len() / 8),
            4 | 5 => number(&mut self.areas, random),
            6 | 7 => number(&mut self.symbols, random),
            8 | 9 => number(&mut self.pairs, random),
            10 => number(&mut self.fragments, random),
            11 => self.content.truncate(self.content.len().saturating_sub(random.range(1, 3))),
            12 => {
                let which = random.below(3);
                self.counts[which] = match random.below(4) {
                    0 => self.counts[which] + 1,
                    1 => self.counts[which].saturating_sub(1),
                    2 => random.below(5000),
                    _ => usize::MAX - random.below(3),
                };
            }
            _ => {
                let which =
                    [&mut self.areas, &mut self.symbols, &mut self.pairs, &mut self.fragments];
                let rows = random.below(4);
                let rows = which.into_iter().nth(rows).expect("one of four");
                rows.truncate(rows.len().saturating_sub(random.range(1, 4)));
            }
        }
    }

    /// Rows with up to three changes.
    pub fn changed(mut self, random: &mut Random) -> Owned {
        (0..random.below(4)).for_each(|_| self.change(random));
        self
    }

    /// The pairs of another.
    pub fn with_pairs(mut self, other: &Owned) -> Owned {
        self.pairs = other.pairs.clone();
        self.content = other.content.clone();
        self.fragments = other.fragments.clone();
        self.counts[2] = other.counts[2];
        self
    }

    /// Numbers of any size, most of them small.
    pub fn any(random: &mut Random) -> Owned {
        let mut some = |most: usize| -> Vec<u32> {
            (0..random.below(most)).map(|_| any_number(random)).collect()
        };
        let (areas, symbols, pairs, fragments) = (some(22), some(22), some(22), some(22));
        let bytes = |random: &mut Random, most: usize| -> Vec<u8> {
            (0..random.below(most)).map(|_| random.pick(b"abcXYZ_.09 \n")).collect()
        };
        let text = bytes(random, 40);
        let content = bytes(random, 40);
        let counts = [random.below(4), random.below(4), random.below(4)];
        Owned {
            big: random.chance(50),
            width: random.range(1, 5) as u32,
            text,
            areas,
            symbols,
            pairs,
            content,
            fragments,
            counts,
        }
    }
}

/// A number, mostly a small one.
fn any_number(random: &mut Random) -> u32 {
    match random.below(12) {
        0 => random.draw() as u32,
        1 => random.pick(&[
            0xEF,
            0xF0,
            0xFF,
            0x100,
            0x7FF,
            0x800,
            0xFFFF,
            0x1_0000,
            0xFF_FFFF,
            0x100_0000,
            u32::MAX,
        ]),
        2..=4 => 0,
        5..=7 => 1,
        _ => random.below(12) as u32,
    }
}

/// Another number somewhere.
fn number(rows: &mut [u32], random: &mut Random) {
    if rows.is_empty() {
        return;
    }
    let at = random.below(rows.len());
    rows[at] = match random.below(4) {
        0 => rows[at].wrapping_add(1),
        1 => rows[at].wrapping_sub(1),
        _ => any_number(random),
    };
}
