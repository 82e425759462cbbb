//! The records that were read, seen in the lent buffers.
use crate::raw::{self, ReadNumbers};
use crate::refusal::Refusal;
use std::fmt;

/// What a header tells.
#[derive(Clone, Copy, Debug, PartialEq, Eq)]
pub struct Header {
    /// The radix of numbers: 16, 10 or 8.
    pub radix: u32,
    /// Whether a number's highest byte comes first.
    pub big: bool,
    /// The bytes of an address: 2, 3 or 4.
    pub width: u32,
}

/// What a text's header tells, or [`Refusal::NoHeader`].
pub fn header(text: &[u8]) -> Result<Header, Refusal> {
    let numbers = raw::header(text);
    Refusal::told(numbers.refusal)?;
    Ok(Header { radix: numbers.radix, big: numbers.big == 1, width: numbers.width })
}

/// How much there is.
#[derive(Clone, Copy, Debug, PartialEq, Eq)]
pub struct Counts {
    /// A lines.
    pub areas: usize,
    /// S lines.
    pub symbols: usize,
    /// T and R pairs.
    pub lines: usize,
    /// Code areas with size above 0.
    pub kept: usize,
    /// The sizes of kept areas together.
    pub positions: usize,
    /// Fixups of all kept areas.
    pub fixups: usize,
}

/// An A line.
#[derive(Clone, Copy, Debug, PartialEq, Eq)]
#[non_exhaustive]
pub struct Area<'a> {
    /// Its name.
    pub name: &'a str,
    /// Its size.
    pub size: u32,
    /// Its flags as they stand.
    pub flags: u32,
    /// Its addr, where one is given.
    pub addr: Option<u32>,
}

impl Area<'_> {
    /// Whether it has a fixed place: flag 08.
    #[must_use]
    pub fn is_absolute(&self) -> bool {
        self.flags & 0x08 != 0
    }

    /// Whether it holds code: flag 20.
    #[must_use]
    pub fn is_code(&self) -> bool {
        self.flags & 0x20 != 0
    }

    /// Whether it is a code area with size above 0.
    #[must_use]
    pub fn is_kept(&self) -> bool {
        self.is_code() && self.size > 0
    }
}

/// An S line.
#[derive(Clone, Copy, Debug, PartialEq, Eq)]
#[non_exhaustive]
pub struct Symbol<'a> {
    /// Its name.
    pub name: &'a str,
    /// Whether it is a Ref, to be found elsewhere.
    pub outside: bool,
    /// Its value.
    pub value: u32,
    /// The index of the last area before it.
    pub area: Option<usize>,
}

/// What a fixup refers to.
#[derive(Clone, Copy, Debug, PartialEq, Eq)]
pub enum Refers<'a> {
    /// An outside symbol, by its name.
    Outside(&'a str),
    /// A kept area, by its id.
    Area(usize),
}

/// A fixup's row.
#[derive(Clone, Copy, Debug, PartialEq, Eq)]
#[non_exhaustive]
pub struct FixupRow<'a> {
    /// The id of the area it lies in.
    pub home: usize,
    /// Its position there.
    pub position: usize,
    /// Its bytes on site.
    pub size: usize,
    /// Its mode, below 2,048.
    pub mode: u32,
    /// What it refers to.
    pub refers: Refers<'a>,
    /// The value of what it refers to.
    pub value: u32,
    /// Its number, below 2^24.
    pub number: u32,
}

/// A kept area: its index and id in the module, and its image.
#[derive(Clone, Copy, Debug, PartialEq, Eq)]
#[non_exhaustive]
pub struct Kept<'a> {
    /// Its index among all areas.
    pub index: usize,
    /// Its rank among kept areas.
    pub id: usize,
    /// Its line.
    pub area: Area<'a>,
    /// A value a position.
    pub values: &'a [u8],
    /// A mask a position: the known bits of its value.
    pub masks: &'a [u8],
    /// How many bits are known: the ones in all masks.
    pub known_bits: u32,
}

/// Records of a text and what they give, in the order of the text. Whether they are all records of
/// a module is told by the type that they come from.
#[derive(Clone, Copy)]
pub struct Records<'a> {
    pub(crate) text: &'a [u8],
    pub(crate) header: Header,
    pub(crate) counts: Counts,
    pub(crate) areas: &'a [u32],
    pub(crate) symbols: &'a [u32],
    pub(crate) values: &'a [u8],
    pub(crate) masks: &'a [u8],
    pub(crate) fixups: &'a [u32],
}

impl fmt::Debug for Records<'_> {
    /// The header and the counts, without the rows.
    fn fmt(&self, out: &mut fmt::Formatter) -> fmt::Result {
        let mut shown = out.debug_struct("Records");
        shown.field("header", &self.header).field("counts", &self.counts).finish_non_exhaustive()
    }
}

impl Counts {
    /// The counts of the library's answer.
    pub(crate) fn told(read: &ReadNumbers) -> Self {
        Counts {
            areas: read.areas,
            symbols: read.symbols,
            lines: read.lines,
            kept: read.kept,
            positions: read.positions,
            fixups: read.fixups,
        }
    }
}

impl<'a> Records<'a> {
    /// What the header tells.
    #[must_use]
    pub fn header(&self) -> Header {
        self.header
    }

    /// How much there is.
    #[must_use]
    pub fn counts(&self) -> Counts {
        self.counts
    }

    /// The name at a place of the text; an accepted text has no byte above 127.
    fn name(&self, place: u32, length: u32) -> &'a str {
        let name = &self.text[place as usize..][..length as usize];
        std::str::from_utf8(name).expect("an accepted text is ASCII")
    }

    /// The areas in order.
    pub fn areas(&self) -> impl Iterator<Item = Area<'a>> + 'a {
        let records = *self;
        self.areas.chunks_exact(raw::widths().area).map(move |row| Area {
            name: records.name(row[0], row[1]),
            size: row[2],
            flags: row[3],
            addr: (row[4] == 1).then_some(row[5]),
        })
    }

    /// The symbols in order.
    pub fn symbols(&self) -> impl Iterator<Item = Symbol<'a>> + 'a {
        let records = *self;
        self.symbols.chunks_exact(raw::widths().symbol).map(move |row| Symbol {
            name: records.name(row[0], row[1]),
            outside: row[2] == 1,
            value: row[3],
            area: (row[4] as usize).checked_sub(1),
        })
    }

    /// The fixups, area by area.
    pub fn fixups(&self) -> impl Iterator<Item = FixupRow<'a>> + 'a {
        let records = *self;
        self.fixups.chunks_exact(raw::widths().fixup).map(move |row| FixupRow {
            home: row[0] as usize,
            position: row[1] as usize,
            size: row[2] as usize,
            mode: row[3],
            refers: match row[4] {
                1 => Refers::Outside(records.name(row[5], row[6])),
                _ => Refers::Area(row[5] as usize),
            },
            value: row[7],
            number: row[8],
        })
    }

    /// The kept areas in order of their ids.
    pub fn kept(&self) -> impl Iterator<Item = Kept<'a>> + 'a {
        let (mut values, mut masks) = (self.values, self.masks);
        let known = self.areas.chunks_exact(raw::widths().area).map(|row| row[6]);
        let kept = self.areas().zip(known).enumerate().filter(|(_, (area, _))| area.is_kept());
        kept.enumerate().map(move |(id, (index, (area, known_bits)))| {
            let size = area.size as usize;
            let image = (&values[..size], &masks[..size]);
            (values, masks) = (&values[size..], &masks[size..]);
            Kept { index, id, area, values: image.0, masks: image.1, known_bits }
        })
    }
}
