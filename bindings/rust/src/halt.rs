//! Why a reading stopped, and what the H line says of the counts.
use crate::raw::EndedNumbers;
use std::fmt;

/// Why the line at which a reading stopped came to a halt. The number of each is that of the listing.
#[derive(Clone, Copy, Debug, PartialEq, Eq, PartialOrd, Ord, Hash)]
#[repr(u32)]
pub enum Reason {
    /// A number is due, and there is no digit.
    NoDigit = 1,
    /// A number over 32 bits.
    Over32Bits = 2,
    /// A number over 255.
    Over255 = 3,
    /// Anything else: a byte that cannot stand there, or the text's end.
    CannotGoOn = 4,
}

impl Reason {
    /// Its number, 1 to 4.
    #[must_use]
    pub fn number(self) -> u32 {
        self as u32
    }

    /// What it means.
    #[must_use]
    pub fn meaning(self) -> &'static str {
        match self {
            Reason::NoDigit => "a number is due, and there is no digit",
            Reason::Over32Bits => "a number over 32 bits",
            Reason::Over255 => "a number over 255",
            Reason::CannotGoOn => "the line cannot go on like this",
        }
    }
}

impl fmt::Display for Reason {
    /// The number and the meaning.
    fn fmt(&self, out: &mut fmt::Formatter) -> fmt::Result {
        write!(out, "reason {}: {}", self.number(), self.meaning())
    }
}

/// Where and why a reading stopped.
#[derive(Clone, Copy, Debug, PartialEq, Eq)]
#[non_exhaustive]
pub struct Halt {
    /// The place of the first byte that was not read: behind the last record.
    pub stop: usize,
    /// Why the line there came to a halt.
    pub reason: Reason,
    /// Where: a number's first byte, the byte that cannot stand there, or the text's end.
    pub place: usize,
}

impl Halt {
    /// The halt of a reading that stopped.
    pub(crate) fn told(ended: &EndedNumbers) -> Self {
        Halt::at(ended.read.place, ended.reason, ended.halt)
    }

    /// A halt by its numbers: where the reading stopped, why and where the line there came to a halt.
    pub(crate) fn at(stop: usize, reason: u32, place: usize) -> Self {
        let reason = match reason {
            1 => Reason::NoDigit,
            2 => Reason::Over32Bits,
            3 => Reason::Over255,
            4 => Reason::CannotGoOn,
            other => panic!("a library with the reasons of this crate, not {other}"),
        };
        Halt { stop, reason, place }
    }
}

impl fmt::Display for Halt {
    /// `stopped at` a place, the reason and its place.
    fn fmt(&self, out: &mut fmt::Formatter) -> fmt::Result {
        let Halt { stop, reason, place } = self;
        write!(out, "stopped at {stop} {reason}, at {place}")
    }
}

/// What the first H line of the form `H N areas N global symbols` says of the A and S lines that were
/// read.
#[derive(Clone, Copy, Debug, PartialEq, Eq, Hash)]
pub enum Counted {
    /// They are as many as it tells.
    Equal,
    /// They are not: lines may be missing.
    NotEqual,
    /// No such line was read.
    NotTold,
}

impl Counted {
    /// The word of an accepted text.
    pub(crate) fn told(ended: &EndedNumbers) -> Self {
        match ended.counted {
            1 => Counted::Equal,
            2 => Counted::NotEqual,
            3 => Counted::NotTold,
            other => panic!("a library with the words of this crate, not {other}"),
        }
    }
}
