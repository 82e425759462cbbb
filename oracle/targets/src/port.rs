//! The port's functions, as its archive exports them. Each answers for every input, and writes only into the slices
//! that it is lent.

/// A target, or the number and place of a refusal.
#[repr(C)]
#[derive(Clone, Copy, Debug, PartialEq, Eq)]
pub struct Target {
    pub refused: u32,
    pub place: u64,
    pub address: u64,
}

/// 1 and the number of a mode step, or 0 and 0 where a part was too short.
#[repr(C)]
#[derive(Clone, Copy, Debug, PartialEq, Eq)]
pub struct Step {
    pub done: u32,
    pub number: u32,
}

/// The class numbers of all modes, lent to each call.
pub type Table = [u8; 2048];

mod archive {
    use super::{Step, Table, Target};
    extern "C" {
        pub fn probe_class(mode: u16) -> u8;
        pub fn probe_size(mode: u16) -> usize;
        pub fn probe_step(
            table: *const Table,
            mode: u32,
            big: bool,
            values: *mut u8,
            values_length: usize,
            masks: *mut u8,
            masks_length: usize,
            kept: *mut u8,
            kept_length: usize,
        ) -> Step;
        pub fn probe_target(
            mode: u32,
            big: bool,
            number: u32,
            address: u64,
            bytes: *const u8,
            length: usize,
        ) -> Target;
        pub fn probe_corrected(
            mode: u32,
            big: bool,
            number: u32,
            address: u64,
            bytes: *const u8,
            length: usize,
        ) -> Target;
        pub fn probe_target_in(
            table: *const Table,
            mode: u32,
            big: bool,
            number: u32,
            address: u64,
            bytes: *const u8,
            length: usize,
        ) -> Target;
        pub fn probe_targets(
            big: bool,
            modes: *const u32,
            modes_length: usize,
            numbers: *const u32,
            numbers_length: usize,
            addresses: *const u64,
            addresses_length: usize,
            bytes: *const u8,
            bytes_length: usize,
            out: *mut u64,
            out_length: usize,
        ) -> usize;
    }
}

/// The class number of a mode, 6 for a mode over 2,047.
pub fn class(mode: u16) -> u8 {
    // SAFETY: a number.
    unsafe { archive::probe_class(mode) }
}

/// The size of a mode on site, 0 for a mode over 2,047.
pub fn size(mode: u16) -> usize {
    // SAFETY: a number.
    unsafe { archive::probe_size(mode) }
}

/// The table, made from the class of each mode.
pub fn table() -> Table {
    std::array::from_fn(|mode| class(mode as u16))
}

/// The mode step on three parts.
pub fn step(
    table: &Table,
    mode: u16,
    big: bool,
    values: &mut [u8],
    masks: &mut [u8],
    kept: &mut [u8],
) -> Step {
    // SAFETY: an array of the 2,048 bytes that are read, and three slices with their lengths, each borrowed for
    // writing alone, so that no two overlap.
    unsafe {
        archive::probe_step(
            table,
            mode.into(),
            big,
            values.as_mut_ptr(),
            values.len(),
            masks.as_mut_ptr(),
            masks.len(),
            kept.as_mut_ptr(),
            kept.len(),
        )
    }
}

/// The target, with its class by the mode's bits.
pub fn target(mode: u32, big: bool, number: u32, address: u64, bytes: &[u8]) -> Target {
    // SAFETY: numbers, and one slice that is read, with its length.
    unsafe { archive::probe_target(mode, big, number, address, bytes.as_ptr(), bytes.len()) }
}

/// The corrected target.
pub fn corrected(mode: u32, big: bool, number: u32, address: u64, bytes: &[u8]) -> Target {
    unsafe { archive::probe_corrected(mode, big, number, address, bytes.as_ptr(), bytes.len()) }
}

/// The target by a lent table.
pub fn target_in(
    table: &Table,
    mode: u32,
    big: bool,
    number: u32,
    address: u64,
    bytes: &[u8],
) -> Target {
    // SAFETY: an array of the 2,048 bytes that are read, numbers, and one slice that is read, with its length.
    unsafe {
        archive::probe_target_in(table, mode, big, number, address, bytes.as_ptr(), bytes.len())
    }
}

/// A row of targets; how many there were.
pub fn targets(
    big: bool,
    modes: &[u32],
    numbers: &[u32],
    addresses: &[u64],
    bytes: &[u8],
    out: &mut [u64],
) -> usize {
    // SAFETY: four slices that are read and one that is borrowed for writing alone, each with its length.
    unsafe {
        archive::probe_targets(
            big,
            modes.as_ptr(),
            modes.len(),
            numbers.as_ptr(),
            numbers.len(),
            addresses.as_ptr(),
            addresses.len(),
            bytes.as_ptr(),
            bytes.len(),
            out.as_mut_ptr(),
            out.len(),
        )
    }
}
