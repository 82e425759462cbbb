//! Pattern books.
use crate::raw_book::{self as raw, EntryNumbers};
use crate::refusal::{Refusal, Refused};
use std::fmt;

/// A pattern book that was opened: one file with the patterns of many modules, each under a name
/// (`MODULE:ID` in a book that `pack` wrote), its contents first, in the order of the names' bytes.
///
/// ```
/// use gatecobalt::{Book, Refusal};
///
/// // One entry: the name `go:0` at 20, and a pattern of two positions at 24.
/// let file = b"\x01\0\0\0\x14\0\0\0\x04\0\0\0\x18\0\0\0\x02\0\0\0go:0\x12\x34\xFF\x00";
/// let book = Book::open(file)?;
/// assert_eq!(book.names().collect::<Vec<_>>(), [b"go:0"]);
/// let pattern = book.find(b"go:0")?;
/// assert_eq!((pattern.values, pattern.masks), (&[0x12, 0x34][..], &[0xFF, 0x00][..]));
/// assert_eq!(book.find(b"stop:0").unwrap_err().refusal, Refusal::NotInBook);
///
/// // A file that is cut is no book.
/// assert_eq!(Book::open(&file[..27]).unwrap_err().to_string(), "refused 21 at 4: contents out of order, with equal names or out of the file");
/// # Ok::<(), gatecobalt::Refused>(())
/// ```
#[derive(Clone, Copy)]
#[must_use]
pub struct Book<'a> {
    bytes: &'a [u8],
    entries: u32,
}

/// A pattern: a value and a mask a position, as parts of the book.
#[derive(Clone, Copy, Debug, PartialEq, Eq)]
#[non_exhaustive]
pub struct Pattern<'a> {
    /// The values.
    pub values: &'a [u8],
    /// The masks: FF where a value is known.
    pub masks: &'a [u8],
}

/// A refusal that the library answered, with its place.
fn refused(number: u32, place: usize) -> Result<(), Refused> {
    Refusal::told(number).map_err(|refusal| Refused { refusal, place })
}

impl<'a> Book<'a> {
    /// A file opened: [`Refusal::NoContents`] before [`Refusal::NotClosed`].
    pub fn open(bytes: &'a [u8]) -> Result<Self, Refused> {
        let told = raw::open(bytes);
        refused(told.refusal, told.place)?;
        Ok(Book { bytes, entries: told.entries })
    }

    /// How many entries it has.
    #[must_use]
    pub fn len(&self) -> usize {
        self.entries as usize
    }

    /// Whether it has none.
    #[must_use]
    pub fn is_empty(&self) -> bool {
        self.entries == 0
    }

    /// The names of its entries, in their order.
    pub fn names(&self) -> impl Iterator<Item = &'a [u8]> + 'a {
        let bytes = self.bytes;
        (0..self.entries).map(move |i| {
            let EntryNumbers { name, length, .. } = raw::entry(bytes, i);
            part(bytes, name as usize, length)
        })
    }

    /// The i-th pattern, in the order of the names.
    #[must_use]
    pub fn pattern(&self, i: usize) -> Option<Pattern<'a>> {
        let i = u32::try_from(i).ok().filter(|i| *i < self.entries)?;
        let EntryNumbers { place, size, .. } = raw::entry(self.bytes, i);
        Some(self.at(place, size))
    }

    /// The pattern of a name, or [`Refusal::NotInBook`].
    pub fn find(&self, name: &[u8]) -> Result<Pattern<'a>, Refused> {
        let told = raw::find(self.bytes, name);
        refused(told.refusal, 0)?;
        Ok(self.at(told.place, told.size))
    }

    /// The pattern of a name copied into lent values and masks, and how many positions it has;
    /// [`Refusal::NotInBook`], or [`Refusal::NoRoom`] where a buffer is too short. A refusal changes
    /// neither.
    pub fn copy(&self, name: &[u8], values: &mut [u8], masks: &mut [u8]) -> Result<usize, Refused> {
        let told = raw::copy(self.bytes, name, values, masks);
        refused(told.refusal, told.place)?;
        Ok(told.size as usize)
    }

    /// The pattern at a place of the book.
    fn at(&self, place: u32, size: u32) -> Pattern<'a> {
        let place = place as usize;
        let masks = part(self.bytes, place + size as usize, size);
        Pattern { values: part(self.bytes, place, size), masks }
    }
}

/// So many bytes from a place on: of a file that was opened every part lies in it.
fn part(bytes: &[u8], at: usize, length: u32) -> &[u8] {
    &bytes[at..at + length as usize]
}

impl fmt::Debug for Book<'_> {
    /// How many entries and bytes it has.
    fn fmt(&self, out: &mut fmt::Formatter) -> fmt::Result {
        out.debug_struct("Book")
            .field("entries", &self.entries)
            .field("bytes", &self.bytes.len())
            .finish()
    }
}
