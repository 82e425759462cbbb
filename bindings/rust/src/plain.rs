//! The plain reading, which is the old module's.
use crate::records::Records;
use crate::segment::Segment;

/// What the plain reading read of a text, up to where it ended. That is no verdict: it ends before
/// the last line end of a whole module, and takes a last line that was cut for a whole one where
/// what is left of it reads.
#[derive(Clone, Copy, Debug)]
#[must_use]
pub struct Plain<'a> {
    pub(crate) left: Option<usize>,
    pub(crate) records: Records<'a>,
}

impl<'a> Plain<'a> {
    /// The place where it ended.
    #[must_use]
    pub fn ended_at(&self) -> usize {
        self.left.unwrap_or(self.records.text.len())
    }

    /// The place of the first byte that it left; none where it left none.
    #[must_use]
    pub fn left_from(&self) -> Option<usize> {
        self.left
    }

    /// The records that it read.
    #[must_use]
    pub fn records(&self) -> Records<'a> {
        self.records
    }

    /// The segments that these records give: what the old module gives for this text, whether it is
    /// whole or not.
    #[must_use]
    pub fn plain_segments(&self, first: usize) -> Vec<Segment> {
        self.records.segments(first)
    }
}
