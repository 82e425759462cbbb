//! The old module's parent: plain stand-ins for what it makes, then the source itself.
pub use aslink3::entry::{function, read};

/// What a fixup refers to.
pub enum CodeRef {
    Public(String, usize),
    Segment(usize, usize),
}

impl CodeRef {
    /// The source's call for an outside symbol.
    fn new_pubref(name: String, value: usize) -> Self {
        CodeRef::Public(name, value)
    }

    /// The source's call for a segment.
    fn new_segid(id: usize, value: usize) -> Self {
        CodeRef::Segment(id, value)
    }
}

/// A fixup's target function.
type Target = Box<dyn Fn(&[u8], usize) -> usize>;

/// A fixup with its target function, as the source makes it.
pub struct Fixup(usize, usize, Target, CodeRef);

impl Fixup {
    /// The source's call for a fixup.
    fn new<F: Fn(&[u8], usize) -> usize + 'static>(
        position: usize,
        size: usize,
        function: Box<F>,
        reference: CodeRef,
    ) -> Self {
        Fixup(position, size, function, reference)
    }

    /// A number that depends on each part, so that none is left out.
    fn touched(&self) -> usize {
        let refers = match &self.3 {
            CodeRef::Public(name, value) => name.len() + value,
            CodeRef::Segment(id, value) => id + value,
        };
        std::hint::black_box(&self.2);
        self.0 ^ self.1 ^ refers
    }
}

/// A segment: base, image, fixups and symbols.
pub struct Segment {
    base: Option<usize>,
    image: Vec<(u8, u8)>,
    fixups: Vec<Fixup>,
    symbols: Vec<(String, usize)>,
}

impl Segment {
    /// The source's call for an absolute area.
    fn new_absolute(
        base: usize,
        image: Vec<(u8, u8)>,
        fixups: Vec<Fixup>,
        symbols: Vec<(String, usize)>,
    ) -> Self {
        Segment { base: Some(base), image, fixups, symbols }
    }

    /// The source's call for an area that is not absolute.
    fn new_relocatable(
        image: Vec<(u8, u8)>,
        fixups: Vec<Fixup>,
        symbols: Vec<(String, usize)>,
    ) -> Self {
        Segment { base: None, image, fixups, symbols }
    }
}

/// All segments of a library.
pub struct SegmentCollection(Vec<Segment>);

impl SegmentCollection {
    /// The source's call for all segments.
    fn new(segments: Vec<Segment>) -> Self {
        SegmentCollection(segments)
    }

    /// Positions and fixups; looks at every part.
    pub fn counts(&self) -> (usize, usize) {
        for segment in &self.0 {
            let touched = segment.fixups.iter().map(Fixup::touched).fold(0, |sum, part| sum ^ part);
            std::hint::black_box((touched, segment.base, &segment.symbols));
        }
        let positions = self.0.iter().map(|segment| segment.image.len()).sum();
        let fixups = self.0.iter().map(|segment| segment.fixups.len()).sum();
        (positions, fixups)
    }
}

include!(concat!(env!("OUT_DIR"), "/module.rs"));
