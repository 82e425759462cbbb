//! What is whole, and what is not.
use crate::halt::{Counted, Halt, Reason};
use crate::records::Records;
use crate::refusal::Refused;
use crate::segment::Segment;
use std::{error, fmt, ops};

/// A text that was read to its last byte, every record with its line end, and whose H line, if it
/// tells counts, tells those that were read.
///
/// A text that was cut directly behind a T and R pair, or that tells no counts and was cut behind any
/// record, is such a text too: its lines alone do not tell.
#[derive(Clone, Copy, Debug)]
#[must_use]
pub struct Module<'a>(pub(crate) Records<'a>, pub(crate) Counted);

impl<'a> Module<'a> {
    /// The kept areas as segments. The first has the id `first`; over the modules of a library a
    /// caller counts on.
    #[must_use]
    pub fn segments(&self, first: usize) -> Vec<Segment> {
        self.0.segments(first)
    }

    /// Its records.
    #[must_use]
    pub fn records(&self) -> Records<'a> {
        self.0
    }

    /// Whether its H line told the counts that were read, or none.
    #[must_use]
    pub fn counted(&self) -> Counted {
        self.1
    }
}

impl<'a> ops::Deref for Module<'a> {
    type Target = Records<'a>;

    /// A whole module's records are seen directly.
    fn deref(&self) -> &Records<'a> {
        &self.0
    }
}

/// A text whose reading stopped: behind the place are bytes of which nothing was read.
#[derive(Clone, Copy, Debug)]
#[must_use]
pub struct Stopped<'a> {
    pub(crate) halt: Halt,
    pub(crate) counted: Counted,
    pub(crate) records: Records<'a>,
}

impl<'a> Stopped<'a> {
    /// The place of the first byte that was not read.
    #[must_use]
    pub fn place(&self) -> usize {
        self.halt.stop
    }

    /// Why the line there came to a halt.
    #[must_use]
    pub fn reason(&self) -> Reason {
        self.halt.reason
    }

    /// Where and why it stopped.
    #[must_use]
    pub fn halt(&self) -> Halt {
        self.halt
    }

    /// What the H line says of the records up to there.
    #[must_use]
    pub fn counted(&self) -> Counted {
        self.counted
    }

    /// The records that were read up to there. There may be more in the text.
    #[must_use]
    pub fn up_to_there(&self) -> Records<'a> {
        self.records
    }

    /// The segments that the records up to there give. They are not the module's: bytes, fixups,
    /// symbols and whole segments may be missing.
    #[must_use]
    pub fn partial_segments(&self, first: usize) -> Vec<Segment> {
        self.records.segments(first)
    }
}

/// A text that was read to its last byte, and whose H line tells other counts of areas and symbols than
/// were read: lines may be missing, or the H line is wrong. It goes to a person.
#[derive(Clone, Copy, Debug)]
#[must_use]
pub struct NotEqual<'a> {
    pub(crate) records: Records<'a>,
}

impl<'a> NotEqual<'a> {
    /// The records that were read. There may have been more.
    #[must_use]
    pub fn as_read(&self) -> Records<'a> {
        self.records
    }

    /// The segments that these records give. They may not be the module's.
    #[must_use]
    pub fn partial_segments(&self, first: usize) -> Vec<Segment> {
        self.records.segments(first)
    }
}

/// A text that is not read as a whole module.
#[derive(Clone, Copy, Debug)]
#[must_use]
#[non_exhaustive]
pub enum NotWhole<'a> {
    /// It is refused.
    Refused(Refused),
    /// The reading stopped before its last byte.
    Stopped(Stopped<'a>),
    /// It was read to its last byte, and its H line tells other counts.
    NotEqual(NotEqual<'a>),
}

impl NotWhole<'_> {
    /// Why it is not whole, without what was read: a value that borrows nothing.
    pub fn fault(&self) -> Fault {
        match self {
            NotWhole::Refused(refused) => Fault::Refused(*refused),
            NotWhole::Stopped(stopped) => Fault::Stopped(stopped.halt),
            NotWhole::NotEqual(read) => {
                let counts = read.records.counts();
                Fault::NotEqual { areas: counts.areas, symbols: counts.symbols }
            }
        }
    }
}

impl fmt::Display for NotWhole<'_> {
    /// The fault.
    fn fmt(&self, out: &mut fmt::Formatter) -> fmt::Result {
        self.fault().fmt(out)
    }
}

impl error::Error for NotWhole<'_> {}

/// Why a text is not whole.
#[derive(Clone, Copy, Debug, PartialEq, Eq)]
#[must_use]
#[non_exhaustive]
pub enum Fault {
    /// It is refused.
    Refused(Refused),
    /// The reading stopped.
    Stopped(Halt),
    /// The H line tells other counts than were read.
    #[non_exhaustive]
    NotEqual {
        /// The areas that were read.
        areas: usize,
        /// The symbols that were read.
        symbols: usize,
    },
}

impl From<NotWhole<'_>> for Fault {
    /// The fault alone.
    fn from(text: NotWhole) -> Self {
        text.fault()
    }
}

impl fmt::Display for Fault {
    /// The refusal, where and why it stopped, or the counts that were read.
    fn fmt(&self, out: &mut fmt::Formatter) -> fmt::Result {
        match self {
            Fault::Refused(refused) => refused.fmt(out),
            Fault::Stopped(halt) => halt.fmt(out),
            Fault::NotEqual { areas, symbols } => {
                write!(out, "finished not equal: read {areas} areas and {symbols} symbols, the H line tells others")
            }
        }
    }
}

impl error::Error for Fault {}
