//! One position, followed to the line that wrote it.
use crate::raw;
use crate::records::Records;
use crate::refusal::{Refusal, Refused};

/// The last line that wrote a position, and what it left there.
#[derive(Clone, Copy, Debug, PartialEq, Eq)]
#[non_exhaustive]
pub struct Writer {
    /// The place of its T line in the text.
    pub place: usize,
    /// The value.
    pub value: u8,
    /// The mask: the known bits of the value.
    pub mask: u8,
}

/// Who wrote a position of the kept area with an id last; `None` where no line did, and the image has
/// 0/0. It is told from the lines of the text alone, from the last back to the first; no image is made.
///
/// The refusals of the text come first, then [`Refusal::NoPosition`]. A text that is stopped is told from
/// the records up to there. It takes under 1 MiB of the calling thread's stack.
pub fn explain(text: &[u8], id: u32, position: u32) -> Result<Option<Writer>, Refused> {
    let told = raw::explain(text, id, position);
    Refusal::told(told.refusal).map_err(|refusal| Refused { refusal, place: told.place })?;
    let byte = |number: u32| u8::try_from(number).expect("a byte of the image");
    let (value, mask) = (byte(told.value), byte(told.mask));
    Ok((told.written == 1).then_some(Writer { place: told.place, value, mask }))
}

impl Records<'_> {
    /// Who wrote a position of the kept area with an id last; `None` where no line did. It is told from the
    /// lines alone, and is what the image has there. [`Refusal::NoPosition`] where there is none.
    pub fn explain(&self, id: usize, position: usize) -> Result<Option<Writer>, Refusal> {
        let none = |_| Refusal::NoPosition;
        let (id, position) =
            (u32::try_from(id).map_err(none)?, u32::try_from(position).map_err(none)?);
        explain(self.text, id, position).map_err(|refused| refused.refusal)
    }
}
