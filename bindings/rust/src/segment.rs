//! What was read, in the shape of the old module: segments with content and mask, absolute or
//! relocatable, fixups with a target function and a reference, and public symbols.
use crate::raw;
use crate::records::{FixupRow, Kept, Records, Refers};
use crate::refusal::Refusal;

/// What a fixup refers to.
#[derive(Clone, Debug, PartialEq, Eq)]
pub enum Reference {
    /// A public symbol of another module, and a value to add.
    Public(String, usize),
    /// A segment by its id, and a place in it.
    Segment(usize, usize),
}

/// The target of a fixup, as the old tool has it: the bytes on site and their address in, what they
/// refer to out; or [`Refusal::NoTarget`].
pub fn target(
    mode: u32,
    big: bool,
    number: u32,
    address: u64,
    bytes: &[u8],
) -> Result<u64, Refusal> {
    told(raw::target(mode, big, number, address, bytes))
}

/// The target of a fixup, as the processor has it: the one to follow a jump with; or
/// [`Refusal::NoTarget`].
///
/// ```
/// // An ACALL at 1000.
/// assert_eq!(gatecobalt::corrected_target(0x08, true, 0, 0x1000, &[0x71, 0x23]), Ok(0x1323));
/// assert_eq!(gatecobalt::target(0x08, true, 0, 0x1000, &[0x71, 0x23]), Ok(0x1023));
/// ```
pub fn corrected_target(
    mode: u32,
    big: bool,
    number: u32,
    address: u64,
    bytes: &[u8],
) -> Result<u64, Refusal> {
    told(raw::corrected_target(mode, big, number, address, bytes))
}

/// A target, or the refusal that the numbers tell.
fn told(told: raw::TargetNumbers) -> Result<u64, Refusal> {
    Refusal::told(told.refusal)?;
    Ok(told.target)
}

/// A place of a segment that the linker fills in.
#[derive(Clone, Debug, PartialEq, Eq)]
pub struct Fixup {
    /// Where it lies in its segment.
    pub position: usize,
    /// Its bytes on site.
    pub size: usize,
    /// What it refers to.
    pub reference: Reference,
    mode: u32,
    number: u32,
    big: bool,
}

impl Fixup {
    /// A fixup's row, its reference counted from the module's first id.
    fn new(row: FixupRow, big: bool, first: usize) -> Self {
        let value = row.value as usize;
        let reference = match row.refers {
            Refers::Outside(name) => Reference::Public(name.to_string(), value),
            Refers::Area(id) => Reference::Segment(first + id, value),
        };
        let FixupRow { position, size, mode, number, .. } = row;
        Fixup { position, size, reference, mode, number, big }
    }

    /// What the bytes on site refer to where they stand at an address, as the processor has it, or
    /// [`Refusal::NoTarget`] if they are fewer than the fixup's size. Follow a jump with this one.
    pub fn corrected_target(&self, bytes: &[u8], address: usize) -> Result<usize, Refusal> {
        let Fixup { mode, big, number, .. } = *self;
        corrected_target(mode, big, number, address as u64, bytes).map(|target| target as usize)
    }

    /// The same as the old tool has it: ask it only to compare with that tool. It is wrong for
    /// short and relative jumps.
    pub fn target(&self, bytes: &[u8], address: usize) -> Result<usize, Refusal> {
        let address = address as u64;
        target(self.mode, self.big, self.number, address, bytes).map(|target| target as usize)
    }

    /// The target function alone, as the old module hands it over. As there, it panics if it is
    /// given fewer bytes than the fixup's size.
    pub fn function(&self) -> impl Fn(&[u8], usize) -> usize + 'static {
        let fixup = self.clone();
        move |bytes, address| fixup.target(bytes, address).expect("as many bytes as the size says")
    }
}

/// A kept area.
#[derive(Clone, Debug, PartialEq, Eq)]
#[non_exhaustive]
pub struct Segment {
    /// Where it stands, if it is absolute.
    pub base: Option<usize>,
    /// Value and mask a position.
    pub content: Vec<(u8, u8)>,
    /// Its fixups in the order made.
    pub fixups: Vec<Fixup>,
    /// Its public symbols.
    pub symbols: Vec<(String, usize)>,
}

impl Records<'_> {
    /// The kept areas as segments, their ids counted from `first`. Only the types that say whether
    /// these are a module's segments hand them out.
    pub(crate) fn segments(&self, first: usize) -> Vec<Segment> {
        self.kept().map(|kept| self.segment(&kept, first)).collect()
    }

    /// One kept area as a segment.
    fn segment(&self, kept: &Kept, first: usize) -> Segment {
        let base = kept.area.is_absolute().then(|| kept.area.addr.unwrap_or(0) as usize);
        let content = kept.values.iter().copied().zip(kept.masks.iter().copied()).collect();
        let own = self.fixups().filter(|row| row.home == kept.id);
        let fixups = own.map(|row| Fixup::new(row, self.header.big, first)).collect();
        let symbols = self.symbols().filter(|symbol| symbol.area == Some(kept.index));
        let symbols = symbols.map(|symbol| (symbol.name.to_string(), symbol.value as usize));
        Segment { base, content, fixups, symbols: symbols.collect() }
    }
}
