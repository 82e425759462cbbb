//! The source's modes: class, size on site, mode step and target.
use super::super::{Endian, JumpType, Mode, Radix};
use super::{format_of, order_of};
use crate::quiet::quietly;
use crate::rows::{Class, Format};

/// The class of a mode below 2,048.
pub fn class(mode: u16) -> Option<Class> {
    Some(match Mode::from_bits(mode)?.get_jump_type() {
        JumpType::Addr19 => Class::Addr19,
        JumpType::Addr11 => Class::Addr11,
        JumpType::Addr24 => Class::Addr24,
        JumpType::Addr16 => Class::Addr16,
        JumpType::Byte => Class::Byte,
        JumpType::Other => Class::Other,
    })
}

/// The size that a mode below 2,048 has on site (`get_onsite_size`).
pub fn on_site_size(mode: u16) -> Option<usize> {
    Some(Mode::from_bits(mode)?.get_onsite_size())
}

/// The mode step (`modify_cmf_to_fixup`) on values, masks and kept flags: its number, the entries
/// changed in place. None for a mode of 2,048 or more, and where the source panics.
pub fn mode_step(format: Format, mode: u16, entries: &mut [(u8, u8, bool)]) -> Option<usize> {
    let mode = Mode::from_bits(mode)?;
    quietly(|| mode.modify_cmf_to_fixup(entries, format_of(format))).ok()
}

/// The source's format where only the order counts.
fn only_order(big: bool) -> (Radix, Endian, u8) {
    (Radix::Hex, order_of(big), 3)
}

/// The target that the source gives for a mode, order, number, bytes and address. None for a mode
/// of 2,048 or more, and where the source panics.
pub fn target(mode: u16, big: bool, number: usize, bytes: &[u8], address: usize) -> Option<usize> {
    let mode = Mode::from_bits(mode)?;
    quietly(|| mode.get_fixup_function(only_order(big), number)(bytes, address)).ok()
}

/// Closures of the one type that every fixup has, with these modes and numbers.
pub fn closures(samples: &[(u16, usize)]) -> Vec<impl Fn(&[u8], usize) -> usize> {
    let closure = |(mode, number): &(u16, usize)| {
        let mode = Mode::from_bits_truncate(*mode);
        mode.get_fixup_function(only_order(number % 2 == 0), *number)
    };
    samples.iter().map(closure).collect()
}
