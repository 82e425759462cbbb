//! Modules with octal and decimal headers written as X.
use crate::halt::Halt;
use crate::raw;
use crate::raw_convert;
use crate::refusal::{Refusal, Refused};
use std::{error, fmt};

/// Why a module is not written as X.
#[derive(Clone, Copy, Debug, PartialEq, Eq)]
#[must_use]
#[non_exhaustive]
pub enum NotConverted {
    /// It is refused.
    Refused(Refused),
    /// Its reading stopped: a record without its line end, or a byte that is left over.
    Stopped(Halt),
}

impl fmt::Display for NotConverted {
    /// The refusal, or where and why it stopped.
    fn fmt(&self, out: &mut fmt::Formatter) -> fmt::Result {
        match self {
            NotConverted::Refused(refused) => refused.fmt(out),
            NotConverted::Stopped(halt) => halt.fmt(out),
        }
    }
}

impl error::Error for NotConverted {}

/// Writes a module with an octal (Q), decimal (D) or X header as X at the start of `out`, and answers how many
/// bytes it has. What an ended reading of it gives are the same areas, symbols, T and R records, images and fixups.
///
/// [`Refusal::NotGivenBack`] where the text would be over 65,536 bytes; then [`Refusal::ShortText`] for too little
/// room. What is not converted leaves the buffer as it was. It takes under 2 MiB of the calling thread's stack.
pub fn convert_into(text: &[u8], out: &mut [u8]) -> Result<usize, NotConverted> {
    let told = raw_convert::convert(text, out);
    Refusal::told(told.refusal)
        .map_err(|refusal| NotConverted::Refused(Refused { refusal, place: told.place }))?;
    if told.reason != 0 {
        return Err(NotConverted::Stopped(Halt::at(told.place, told.reason, told.halt)));
    }
    Ok(told.bytes)
}

/// The same, with a buffer of its own.
pub fn convert(text: &[u8]) -> Result<Vec<u8>, NotConverted> {
    let mut out = vec![0; raw::rooms().text];
    let bytes = convert_into(text, &mut out)?;
    out.truncate(bytes);
    Ok(out)
}
