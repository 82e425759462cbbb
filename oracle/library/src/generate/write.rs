//! Writing a draft as text, plainly or in every layout that the rules allow.
use super::draft::{Addr, Draft, Entry, Line, PairLines};
use super::random::Random;
use crate::rows::{Format, Fragment, Radix};

/// How a text is laid out; each number is a chance of a hundred.
#[derive(Clone, Copy, Default)]
pub struct Style {
    /// Other blanks than one space.
    pub blanks: usize,
    /// Blanks behind a line; never behind the T of a T and R pair.
    pub trailing: usize,
    /// CR LF for LF.
    pub returns: usize,
    /// Leading zeros.
    pub zeros: usize,
    /// Lower case for a hex number.
    pub lower: usize,
    /// A mode below F0 written as two bytes.
    pub escaped: usize,
    /// No line end behind the last line.
    pub unended: usize,
}

/// A pen that writes the parts of a line.
struct Pen<'a> {
    format: Format,
    style: Style,
    random: &'a mut Random,
    out: String,
}

impl Pen<'_> {
    /// One or more blanks.
    fn blank(&mut self) {
        let odd = self.style.blanks > 0 && self.random.chance(self.style.blanks);
        let blanks = if odd { self.random.pick(&["  ", "\t", " \t ", "\t\t", "   "]) } else { " " };
        self.out.push_str(blanks);
    }

    /// A number with at least so many digits.
    fn digits(&mut self, number: u32, width: usize) {
        let zeros = self.style.zeros > 0 && self.random.chance(self.style.zeros);
        let width = if zeros { width + self.random.below(12) } else { width };
        let digits = match self.format.radix {
            Radix::Hex if self.style.lower > 0 && self.random.chance(self.style.lower) => {
                format!("{number:0width$x}")
            }
            Radix::Hex => format!("{number:0width$X}"),
            Radix::Decimal => format!("{number:0width$}"),
            Radix::Octal => format!("{number:0width$o}"),
        };
        self.out.push_str(&digits);
    }

    /// Bytes, blanks before each.
    fn bytes(&mut self, bytes: &[u8]) {
        let width = if self.format.radix == Radix::Hex { 2 } else { 1 };
        for byte in bytes {
            self.blank();
            self.digits(u32::from(*byte), width);
        }
    }

    /// The low bytes of a number in the header's order, blanks before each.
    fn joined(&mut self, number: u32, length: usize) {
        let mut bytes = number.to_le_bytes()[..length].to_vec();
        if self.format.big {
            bytes.reverse();
        }
        self.bytes(&bytes);
    }

    /// A mode: one byte below F0, else two.
    fn mode(&mut self, mode: u16) {
        if mode < 0xF0 && !self.random.chance(self.style.escaped) {
            self.bytes(&[mode as u8]);
        } else {
            self.bytes(&[0xF0 | (mode >> 8) as u8, mode as u8]);
        }
    }

    /// A word behind blanks.
    fn word(&mut self, word: &str) {
        self.blank();
        self.out.push_str(word);
    }

    /// Blanks that may trail a line.
    fn trail(&mut self) {
        if self.style.trailing > 0 && self.random.chance(self.style.trailing) {
            self.blank();
        }
    }

    /// A line end.
    fn end(&mut self) {
        let returns = self.style.returns > 0 && self.random.chance(self.style.returns);
        self.out.push_str(if returns { "\r\n" } else { "\n" });
    }

    /// A line of group one.
    fn entry(&mut self, entry: &Entry) {
        match entry {
            Entry::Area { name, size, flags, addr } => {
                self.out.push('A');
                self.word(name);
                for (word, number) in [("size", size), ("flags", flags)] {
                    self.word(word);
                    self.blank();
                    self.digits(*number, 1);
                }
                self.addr(addr);
            }
            Entry::Symbol { name, reference, value } => {
                self.out.push('S');
                self.word(name);
                self.word(if *reference { "Ref" } else { "Def" });
                self.digits(*value, 4);
            }
            Entry::Raw(line) => self.out.push_str(line),
        }
    }

    /// What stands behind an A line's flags.
    fn addr(&mut self, addr: &Addr) {
        match addr {
            Addr::Absent => (),
            Addr::Given(number) => {
                self.word("addr");
                self.blank();
                self.digits(*number, 1);
            }
            Addr::Raw(text) => self.out.push_str(text),
        }
    }

    /// One fragment.
    fn fragment(&mut self, fragment: &Fragment) {
        self.mode(fragment.mode);
        self.bytes(&[fragment.entry]);
        self.joined(u32::from(fragment.index), 2);
    }

    /// A T and R pair.
    fn pair(&mut self, pair: &PairLines) {
        self.out.push('T');
        self.joined(pair.address, usize::from(self.format.length));
        self.bytes(&pair.content);
        self.end();
        self.out.push('R');
        self.joined(0, 2);
        self.joined(u32::from(pair.area), 2);
        for fragment in &pair.fragments {
            self.fragment(fragment);
        }
        self.out.push_str(&pair.tail);
    }

    /// The header line.
    fn header(&mut self, draft: &Draft) {
        let radix = match self.format.radix {
            Radix::Hex => 'X',
            Radix::Decimal => 'D',
            Radix::Octal => 'Q',
        };
        let order = if self.format.big { 'H' } else { 'L' };
        let good = format!("{radix}{order}{}", self.format.length);
        self.out.push_str(&draft.lead);
        self.out.push_str(draft.header.unwrap_or(&good));
        self.out.push_str(draft.junk);
    }
}

/// The draft's text in a style.
pub fn write(random: &mut Random, draft: &Draft, style: Style) -> Vec<u8> {
    let unended = random.chance(style.unended);
    let mut pen = Pen { format: draft.format, style, random, out: String::new() };
    pen.header(draft);
    pen.trail();
    for entry in &draft.entries {
        pen.end();
        pen.entry(entry);
        pen.trail();
    }
    for line in &draft.lines {
        pen.end();
        match line {
            Line::Pair(pair) => pen.pair(pair),
            Line::Raw(text) => pen.out.push_str(text),
        }
        pen.trail();
    }
    if !unended {
        pen.end();
    }
    pen.out.into_bytes()
}
