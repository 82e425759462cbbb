//! Both readings into buffers that a caller lends.
use crate::halt::{Counted, Halt};
use crate::module::{Module, NotEqual, NotWhole, Stopped};
use crate::plain::Plain;
use crate::raw::{self, ReadNumbers};
use crate::records::{header, Counts, Records};
use crate::refusal::{Refusal, Refused};
use std::fmt;

/// The five buffers that a reading is lent, of any lengths: [`Refusal::ShortBuffer`] if one has less
/// than [`rooms`](crate::rooms) says. A [`Reader`](crate::Reader) has its own.
pub struct Lent<'a> {
    /// For area rows.
    pub areas: &'a mut [u32],
    /// For symbol rows.
    pub symbols: &'a mut [u32],
    /// For values.
    pub values: &'a mut [u8],
    /// For masks.
    pub masks: &'a mut [u8],
    /// For fixup rows.
    pub fixups: &'a mut [u32],
}

impl fmt::Debug for Lent<'_> {
    /// The lengths of the buffers.
    fn fmt(&self, out: &mut fmt::Formatter) -> fmt::Result {
        out.debug_struct("Lent")
            .field("areas", &self.areas.len())
            .field("symbols", &self.symbols.len())
            .field("values", &self.values.len())
            .field("masks", &self.masks.len())
            .field("fixups", &self.fixups.len())
            .finish()
    }
}

/// A refusal that the library answered, with its place.
fn refused(read: &ReadNumbers) -> Result<(), Refused> {
    Refusal::told(read.refusal).map_err(|refusal| Refused { refusal, place: read.place })
}

impl<'a> Lent<'a> {
    /// The ended reading of a text, as [`Reader::whole`](crate::Reader::whole).
    pub fn whole(mut self, text: &'a [u8]) -> Result<Module<'a>, NotWhole<'a>> {
        let ended = raw::read_ended(text, &mut self);
        refused(&ended.read).map_err(NotWhole::Refused)?;
        let (records, counted) = (self.records(text, &ended.read), Counted::told(&ended));
        if ended.read.finished != 1 {
            Err(NotWhole::Stopped(Stopped { halt: Halt::told(&ended), counted, records }))
        } else if counted == Counted::NotEqual {
            Err(NotWhole::NotEqual(NotEqual { records }))
        } else {
            Ok(Module(records, counted))
        }
    }

    /// The plain reading of a text, as [`Reader::plain`](crate::Reader::plain).
    pub fn plain(mut self, text: &'a [u8]) -> Result<Plain<'a>, Refused> {
        let read = raw::read_plain(text, &mut self);
        refused(&read)?;
        let left = (read.finished != 1).then_some(read.place);
        Ok(Plain { left, records: self.records(text, &read) })
    }

    /// The records that an accepted text gave.
    fn records(self, text: &'a [u8], read: &ReadNumbers) -> Records<'a> {
        let (counts, widths) = (Counts::told(read), raw::widths());
        Records {
            text,
            header: header(text).expect("an accepted text has a header"),
            counts,
            areas: &self.areas[..counts.areas * widths.area],
            symbols: &self.symbols[..counts.symbols * widths.symbol],
            values: &self.values[..counts.positions],
            masks: &self.masks[..counts.positions],
            fixups: &self.fixups[..counts.fixups * widths.fixup],
        }
    }
}
