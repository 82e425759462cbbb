//! A module's code placed at chosen addresses, as a linker places it.
use crate::raw;
use crate::refusal::{Refusal, Refused};

/// Places a module's code: the bytes of all kept areas, one behind the other, at the start of `out`, and how
/// many there are. `areas` has the address of each kept area by its id, `symbols` that of each outside symbol
/// by its index in the symbol table; what stands there for a Def is not looked at.
///
/// [`Refusal::ShortBuffer`] for a buffer shorter than 65,536 bytes; the refusals of the text;
/// [`Refusal::ShortBuffer`] for fewer addresses than kept areas or symbols; [`Refusal::NotPlaced`] for a module
/// outside the conditions. A refusal changes no byte. It takes under 1 MiB of the calling thread's stack.
pub fn place_into(
    text: &[u8],
    areas: &[u64],
    symbols: &[u64],
    out: &mut [u8],
) -> Result<usize, Refused> {
    let told = raw::place(text, areas, symbols, out);
    Refusal::told(told.refusal).map_err(|refusal| Refused { refusal, place: told.place })?;
    Ok(told.bytes)
}

/// The same, with a buffer of its own.
pub fn place(text: &[u8], areas: &[u64], symbols: &[u64]) -> Result<Vec<u8>, Refused> {
    let mut out = vec![0; raw::rooms().values];
    let bytes = place_into(text, areas, symbols, &mut out)?;
    out.truncate(bytes);
    Ok(out)
}

/// The first position at which code does not have a pattern's bits wherever the mask has a one; `None` where
/// it matches. Behind the end of a pattern nothing is known, so any byte matches there.
#[must_use]
pub fn mismatch(values: &[u8], masks: &[u8], code: &[u8]) -> Option<usize> {
    let first = raw::mismatch(values, masks, code);
    (first < code.len()).then_some(first)
}
