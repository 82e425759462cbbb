//! T and R records as rows, and modules written back.
use crate::raw;
use crate::raw_write;
use crate::records::Records;
use crate::refusal::{Refusal, Refused};

/// Numbers in a row of a T and R pair, and in a row of a fragment.
pub const PAIR_WIDTH: usize = 7;
/// Numbers in a row of a fragment.
pub const FRAGMENT_WIDTH: usize = 3;

/// The most pairs, content bytes and fragments of an accepted text.
const MOST: (usize, usize, usize) = (4096, 32768, 8192);

/// The T and R records of a text. A row of a pair has the T's place, its address, its area's index, its
/// first content byte and how many it has, its first fragment and how many it has; a row of a fragment
/// has mode, entry and index.
#[derive(Clone, Debug, PartialEq, Eq)]
#[non_exhaustive]
pub struct Pairs {
    /// Rows of [`PAIR_WIDTH`] numbers.
    pub pairs: Vec<u32>,
    /// The content bytes of all pairs.
    pub content: Vec<u8>,
    /// Rows of [`FRAGMENT_WIDTH`] numbers.
    pub fragments: Vec<u32>,
}

/// The T and R records of a text that the ended reading accepts; of one that is stopped those up to there.
/// It takes under 1 MiB of the calling thread's stack.
pub fn pairs(text: &[u8]) -> Result<Pairs, Refused> {
    let mut read = Pairs {
        pairs: vec![0; MOST.0 * PAIR_WIDTH],
        content: vec![0; MOST.1],
        fragments: vec![0; MOST.2 * FRAGMENT_WIDTH],
    };
    let told = raw_write::read_pairs(text, &mut read.pairs, &mut read.content, &mut read.fragments);
    Refusal::told(told.refusal).map_err(|refusal| Refused { refusal, place: told.place })?;
    read.pairs.truncate(told.pairs * PAIR_WIDTH);
    read.content.truncate(told.content);
    read.fragments.truncate(told.fragments * FRAGMENT_WIDTH);
    Ok(read)
}

/// Rows that are to be written as a module, and the text that their names lie in. Any rows may be written,
/// and counts past them.
#[derive(Clone, Copy, Debug)]
pub struct Rows<'a> {
    /// Whether a number's highest byte comes first.
    pub big: bool,
    /// The bytes of an address: 2, 3 or 4.
    pub width: u32,
    /// The text that the names lie in.
    pub text: &'a [u8],
    /// Area rows.
    pub areas: &'a [u32],
    /// How many of them.
    pub area_count: usize,
    /// Symbol rows: a symbol stands behind as many areas as its row's last number says.
    pub symbols: &'a [u32],
    /// How many of them.
    pub symbol_count: usize,
    /// Rows of pairs.
    pub pairs: &'a [u32],
    /// How many of them.
    pub pair_count: usize,
    /// Content bytes.
    pub content: &'a [u8],
    /// Rows of fragments.
    pub fragments: &'a [u32],
}

impl Rows<'_> {
    /// Writes a module: an X header with this order and width, a line for each area and symbol, two for each
    /// pair; and answers how many bytes it has. [`Refusal::NotGivenBack`] exactly where an ended reading of it
    /// would be refused, not be finished, or give back other areas, symbols, T and R records; then
    /// [`Refusal::ShortText`]. A refusal leaves the buffer as it was.
    pub fn write_into(&self, out: &mut [u8]) -> Result<usize, Refusal> {
        let told = raw_write::write(self, out);
        Refusal::told(told.refusal)?;
        Ok(told.bytes)
    }

    /// The module's text.
    ///
    /// ```
    /// let text = b"XH2\r\nM a\r\nS _go Def00ff\r\nA C size 2\tflags 20\r\nT 0 0 1 2\r\nR 0 0 0 0\r\n";
    /// let mut reader = gatecobalt::Reader::new();
    /// let module = reader.whole(text).map_err(|bad| bad.fault())?;
    /// let pairs = gatecobalt::pairs(text)?;
    /// let written = module.rows(&pairs).write()?;
    /// assert_eq!(written, b"XH2\nS _go DefFF\nA C size 2 flags 20\nT 00 00 01 02\nR 00 00 00 00\n");
    /// # Ok::<(), Box<dyn std::error::Error>>(())
    /// ```
    pub fn write(&self) -> Result<Vec<u8>, Refusal> {
        let mut out = vec![0; raw::rooms().text];
        let length = self.write_into(&mut out)?;
        out.truncate(length);
        Ok(out)
    }
}

impl Records<'_> {
    /// The rows of a reading with its T and R records, to be written back or changed first.
    #[must_use]
    pub fn rows<'a>(&'a self, pairs: &'a Pairs) -> Rows<'a> {
        Rows {
            big: self.header.big,
            width: self.header.width,
            text: self.text,
            areas: self.areas,
            area_count: self.counts.areas,
            symbols: self.symbols,
            symbol_count: self.counts.symbols,
            pairs: &pairs.pairs,
            pair_count: pairs.pairs.len() / PAIR_WIDTH,
            content: &pairs.content,
            fragments: &pairs.fragments,
        }
    }
}
