//! A child module of the source, which sees its private functions.
use super::{parse_module, Aslink3Objects, Endian, Mode, Radix};
use crate::old::SegmentCollection;
use std::convert::TryFrom;

/// The source's parsing of one module and its conversion: how many positions and fixups it has.
pub fn read(text: &str) -> Option<(usize, usize)> {
    let (_, module) = parse_module(text).ok()?;
    let collection = SegmentCollection::try_from(Aslink3Objects { objects: vec![module] }).ok()?;
    Some(std::hint::black_box(collection).counts())
}

/// The source's target function of a mode, an order and a number, boxed as a fixup has it.
pub fn function(mode: u16, big: bool, number: usize) -> Box<dyn Fn(&[u8], usize) -> usize> {
    let order = if big { Endian::Big } else { Endian::Little };
    Box::new(Mode::from_bits_truncate(mode).get_fixup_function((Radix::Hex, order, 3), number))
}
