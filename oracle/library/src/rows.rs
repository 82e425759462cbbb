//! Plain types for what the Rust answers.
use crate::captured;

/// The radix of a module's numbers.
#[derive(Clone, Copy, Debug, PartialEq, Eq)]
pub enum Radix {
    Hex,
    Decimal,
    Octal,
}

/// What a header tells: radix, whether the order is big, and the address length.
#[derive(Clone, Copy, Debug, PartialEq, Eq)]
pub struct Format {
    pub radix: Radix,
    pub big: bool,
    pub length: u8,
}

/// The class of a mode, as the source decides it from four bits.
#[derive(Clone, Copy, Debug, PartialEq, Eq)]
pub enum Class {
    Addr19,
    Addr11,
    Addr24,
    Addr16,
    Byte,
    Other,
}

/// An A line. The source keeps two of the flags: absolute (08) and code (20).
#[derive(Clone, Debug, PartialEq, Eq)]
pub struct Area {
    pub name: String,
    pub size: u32,
    pub absolute: bool,
    pub code: bool,
    pub base: Option<u32>,
}

impl Area {
    /// A kept area is a code area with size above 0.
    pub fn kept(&self) -> bool {
        self.code && self.size > 0
    }
}

/// An S line, with the index of the last area before it.
#[derive(Clone, Debug, PartialEq, Eq)]
pub struct Symbol {
    pub name: String,
    pub reference: bool,
    pub value: u32,
    pub area: Option<u16>,
}

/// One fragment of an R line.
#[derive(Clone, Copy, Debug, PartialEq, Eq)]
pub struct Fragment {
    pub mode: u16,
    pub entry: u8,
    pub index: u16,
}

/// A T line's address and content.
#[derive(Clone, Debug, PartialEq, Eq)]
pub struct Content {
    pub address: u32,
    pub bytes: Vec<u8>,
}

/// A T and R pair.
#[derive(Clone, Debug, PartialEq, Eq)]
pub struct Pair {
    pub address: u32,
    pub content: Vec<u8>,
    pub area: u16,
    pub fragments: Vec<Fragment>,
}

/// What `parse_module` gives, and the place where its rest begins.
#[derive(Clone, Debug, PartialEq, Eq)]
pub struct Tables {
    pub format: Format,
    pub areas: Vec<Area>,
    pub symbols: Vec<Symbol>,
    pub pairs: Vec<Pair>,
    pub rest: usize,
}

impl Tables {
    /// The sizes of all kept areas together.
    pub fn kept_size(&self) -> u64 {
        let kept = self.areas.iter().filter(|area| area.kept());
        kept.map(|area| u64::from(area.size)).sum()
    }
}

/// What a fixup refers to: an outside symbol by name, or a kept area by its id.
#[derive(Clone, Debug, PartialEq, Eq)]
pub enum Reference {
    Outside { name: String, value: usize },
    Area { id: usize, value: usize },
}

impl Reference {
    /// The source's call for an outside symbol.
    pub(crate) fn new_pubref(name: String, value: usize) -> Self {
        Reference::Outside { name, value }
    }

    /// The source's call for a kept area.
    pub(crate) fn new_segid(id: usize, value: usize) -> Self {
        Reference::Area { id, value }
    }
}

/// A fixup: its position in its area, its size, its mode and number as the source's closure holds
/// them, what it refers to, and that closure.
pub struct Fixup {
    pub position: usize,
    pub size: usize,
    pub mode: u16,
    pub number: usize,
    pub reference: Reference,
    function: Box<Target>,
}

/// The source's closure: bytes and their address in, the target out.
type Target = dyn Fn(&[u8], usize) -> usize;

impl Fixup {
    /// The source's call for a fixup; each call is counted.
    pub(crate) fn new<F: Fn(&[u8], usize) -> usize + 'static>(
        position: usize,
        size: usize,
        function: Box<F>,
        reference: Reference,
    ) -> Self {
        let (mode, number) = captured::take(&*function);
        Fixup { position, size, mode, number, reference, function }
    }

    /// The target that the source's closure gives for these bytes at this address; none where it
    /// panics.
    pub fn target(&self, bytes: &[u8], address: usize) -> Option<usize> {
        crate::quiet::quietly(|| (self.function)(bytes, address)).ok()
    }
}

/// A kept area: its index in the module, its base if it is absolute, its image (value and mask a
/// position), its symbols and its fixups.
pub struct Kept {
    pub index: usize,
    pub base: Option<usize>,
    pub image: Vec<(u8, u8)>,
    pub symbols: Vec<(String, usize)>,
    pub fixups: Vec<Fixup>,
}

/// Why the Rust panicked.
#[derive(Clone, Copy, Debug, PartialEq, Eq)]
pub enum Cause {
    /// A fragment touches more entries than there are: refusal 10.
    Entry,
    /// A symbol index past the table: refusal 11.
    Symbol,
    /// A fixup has no number: refusal 12.
    Number,
    /// A line of the source that no refusal stands for.
    Elsewhere,
}

/// What the Rust does with a text.
pub enum Answer {
    /// It reads it: the tables, and the kept areas in order of their ids.
    Read(Tables, Vec<Kept>),
    /// It panics while placing, after so many fixups.
    Panicked(Cause, usize, Tables),
    /// It panics while parsing: no rule says so.
    PanickedParsing,
    /// The kept areas are so large together that it was not asked to place.
    TooLarge(Tables),
    /// It finds no header.
    NoHeader,
    /// The text is not UTF-8 and cannot be given to it.
    NotText,
}

impl Answer {
    /// The tables, where the Rust came to have them.
    pub fn tables(&self) -> Option<&Tables> {
        match self {
            Answer::Read(tables, _) | Answer::Panicked(_, _, tables) | Answer::TooLarge(tables) => {
                Some(tables)
            }
            _ => None,
        }
    }
}
