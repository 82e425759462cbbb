//! What the ended reading gives of a text, with all rows.
use gatecobalt::{rooms, widths, Counts, Lent, NotWhole};

/// An accepted text and its rows.
pub struct Text {
    pub bytes: Vec<u8>,
    pub finished: bool,
    pub areas: Vec<u32>,
    pub symbols: Vec<u32>,
    pub values: Vec<u8>,
    pub masks: Vec<u8>,
    pub fixups: Vec<u32>,
}

/// A text that was read, or its refusal's number and place.
pub enum Read {
    Text(Text),
    Refused(u32, usize),
}

impl Text {
    /// A part of the text.
    pub fn part(&self, start: u32, length: u32) -> &[u8] {
        &self.bytes[start as usize..start as usize + length as usize]
    }
}

/// The five buffers that readings are lent.
pub struct Buffers {
    areas: Vec<u32>,
    symbols: Vec<u32>,
    values: Vec<u8>,
    masks: Vec<u8>,
    fixups: Vec<u32>,
}

impl Buffers {
    /// Buffers of the full room.
    pub fn new() -> Buffers {
        let rooms = rooms();
        Buffers {
            areas: vec![0; rooms.areas],
            symbols: vec![0; rooms.symbols],
            values: vec![0; rooms.values],
            masks: vec![0; rooms.masks],
            fixups: vec![0; rooms.fixups],
        }
    }

    /// Counts, and whether no byte is left; or the refusal.
    pub fn counts(&mut self, text: &[u8]) -> Result<(Counts, bool), (u32, usize)> {
        let lent = Lent {
            areas: &mut self.areas,
            symbols: &mut self.symbols,
            values: &mut self.values,
            masks: &mut self.masks,
            fixups: &mut self.fixups,
        };
        match lent.whole(text) {
            Ok(module) => Ok((module.counts(), true)),
            Err(NotWhole::NotEqual(unequal)) => Ok((unequal.as_read().counts(), true)),
            Err(NotWhole::Stopped(stopped)) => Ok((stopped.up_to_there().counts(), false)),
            Err(NotWhole::Refused(refused)) => Err((refused.refusal.number(), refused.place)),
            Err(other) => panic!("{other}: nothing here knows this"),
        }
    }

    /// A text with its rows.
    pub fn read(&mut self, text: &[u8]) -> Read {
        let (counts, finished) = match self.counts(text) {
            Ok(read) => read,
            Err((number, place)) => return Read::Refused(number, place),
        };
        let widths = widths();
        Read::Text(Text {
            bytes: text.to_vec(),
            finished,
            areas: self.areas[..counts.areas * widths.area].to_vec(),
            symbols: self.symbols[..counts.symbols * widths.symbol].to_vec(),
            values: self.values[..counts.positions].to_vec(),
            masks: self.masks[..counts.positions].to_vec(),
            fixups: self.fixups[..counts.fixups * widths.fixup].to_vec(),
        })
    }
}
