//! The reader with its buffers.
use crate::lent::Lent;
use crate::module::{Module, NotWhole};
use crate::plain::Plain;
use crate::raw;
use crate::refusal::Refused;
use std::fmt;

/// Buffers of the full room, lent to one reading after the other.
pub struct Reader {
    areas: Vec<u32>,
    symbols: Vec<u32>,
    values: Vec<u8>,
    masks: Vec<u8>,
    fixups: Vec<u32>,
}

impl fmt::Debug for Reader {
    /// The name alone: what the buffers hold means nothing outside a reading.
    fn fmt(&self, out: &mut fmt::Formatter) -> fmt::Result {
        out.debug_struct("Reader").finish_non_exhaustive()
    }
}

impl Default for Reader {
    /// A reader with new buffers.
    fn default() -> Self {
        Reader::new()
    }
}

impl Reader {
    /// A reader with new buffers, some 190 kB in all.
    #[must_use]
    pub fn new() -> Self {
        let rooms = raw::rooms();
        Reader {
            areas: vec![0; rooms.areas],
            symbols: vec![0; rooms.symbols],
            values: vec![0; rooms.values],
            masks: vec![0; rooms.masks],
            fixups: vec![0; rooms.fixups],
        }
    }

    /// Reads a module to its last byte, every record with its line end, and holds the counts of its H
    /// line, if it tells any, to what was read; or says why it is not whole.
    pub fn whole<'a>(&'a mut self, text: &'a [u8]) -> Result<Module<'a>, NotWhole<'a>> {
        self.lent().whole(text)
    }

    /// The plain reading, which is the old module's: it ends at the first byte that it cannot take,
    /// and that is no error. It cannot tell a cut text from a whole one.
    pub fn plain<'a>(&'a mut self, text: &'a [u8]) -> Result<Plain<'a>, Refused> {
        self.lent().plain(text)
    }

    /// Its buffers, to be lent.
    fn lent(&mut self) -> Lent<'_> {
        Lent {
            areas: &mut self.areas,
            symbols: &mut self.symbols,
            values: &mut self.values,
            masks: &mut self.masks,
            fixups: &mut self.fixups,
        }
    }
}
