//! The source's parent module: the stand-ins that it asks for, then the source itself.
use crate::rows::Cause;
pub use crate::rows::{Fixup, Reference as CodeRef};

pub use aslink3::probe;

/// Stands for a segment: the rows that the source hands over.
pub struct Segment {
    pub base: Option<usize>,
    pub image: Vec<(u8, u8)>,
    pub fixups: Vec<Fixup>,
    pub symbols: Vec<(String, usize)>,
}

impl Segment {
    /// The source's call for an absolute area.
    fn new_absolute(
        base: usize,
        image: Vec<(u8, u8)>,
        fixups: Vec<Fixup>,
        symbols: Vec<(String, usize)>,
    ) -> Self {
        let base = Some(base);
        Segment { base, image, fixups, symbols }
    }

    /// The source's call for an area that is not absolute.
    fn new_relocatable(
        image: Vec<(u8, u8)>,
        fixups: Vec<Fixup>,
        symbols: Vec<(String, usize)>,
    ) -> Self {
        let base = None;
        Segment { base, image, fixups, symbols }
    }
}

/// Stands for a collection of segments.
pub struct SegmentCollection(pub Vec<Segment>);

impl SegmentCollection {
    /// The source's call for all segments of a library.
    fn new(segments: Vec<Segment>) -> Self {
        SegmentCollection(segments)
    }
}

/// Why the source panicked on this line of it.
pub fn cause(line: u32) -> Cause {
    match line {
        PART_LINE => Cause::Entry,
        SYMBOL_LINE => Cause::Symbol,
        NUMBER_LINE => Cause::Number,
        _ if (STEP_LINES[0]..STEP_LINES[1]).contains(&line) => Cause::Entry,
        _ => Cause::Elsewhere,
    }
}

include!(concat!(env!("OUT_DIR"), "/module.rs"));
