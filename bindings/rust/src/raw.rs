//! The static library's functions. Each is total: it answers for every text and every slice, and
//! writes only into the slices that it is lent. So each call here is sound for every argument.
use crate::lent::Lent;

/// A reading's answer as numbers.
#[repr(C)]
pub(crate) struct ReadNumbers {
    pub refusal: u32,
    pub finished: u32,
    pub place: usize,
    pub areas: usize,
    pub symbols: usize,
    pub lines: usize,
    pub kept: usize,
    pub positions: usize,
    pub fixups: usize,
}

/// The ended reading's answer as numbers: a reading's; why it stopped and where its line came to a
/// halt, or 0; and 1 equal, 2 not equal, 3 not told, of the H line's counts.
#[repr(C)]
pub(crate) struct EndedNumbers {
    pub read: ReadNumbers,
    pub reason: u32,
    pub counted: u32,
    pub halt: usize,
}

/// What a header tells, as numbers.
#[repr(C)]
pub(crate) struct HeaderNumbers {
    pub refusal: u32,
    pub radix: u32,
    pub big: u32,
    pub width: u32,
}

/// A target's answer as numbers.
#[repr(C)]
pub(crate) struct TargetNumbers {
    pub refusal: u32,
    pub target: u64,
}

/// Who wrote a position last, as numbers: a refusal and its place; or 0, 1 if a line wrote it, the
/// place of that line, and what it left there.
#[repr(C)]
pub(crate) struct ExplainNumbers {
    pub refusal: u32,
    pub written: u32,
    pub place: usize,
    pub value: u32,
    pub mask: u32,
}

/// The answer to a comparison as numbers: a refusal, 1 if it is the older's, 2 if it is the newer's,
/// and its place; or how many rows there are.
#[repr(C)]
pub(crate) struct ChangedNumbers {
    pub refusal: u32,
    pub side: u32,
    pub place: usize,
    pub rows: usize,
}

/// What placing tells: a refusal and its place, or 0 and how many bytes were placed.
#[repr(C)]
pub(crate) struct PlaceNumbers {
    pub refusal: u32,
    pub place: usize,
    pub bytes: usize,
}

/// Numbers in a row of each table.
#[repr(C)]
#[derive(Clone, Copy, Debug, PartialEq, Eq)]
pub struct Widths {
    /// Of an area's row.
    pub area: usize,
    /// Of a symbol's row.
    pub symbol: usize,
    /// Of a fixup's row.
    pub fixup: usize,
}

/// The longest text, and the room of each lent buffer in elements.
#[repr(C)]
#[derive(Clone, Copy, Debug, PartialEq, Eq)]
pub struct Rooms {
    /// The most bytes of a text.
    pub text: usize,
    /// The room for area rows.
    pub areas: usize,
    /// The room for symbol rows.
    pub symbols: usize,
    /// The room for the values of all kept areas.
    pub values: usize,
    /// The room for their masks.
    pub masks: usize,
    /// The room for fixup rows.
    pub fixups: usize,
}

/// The type of a reading with this answer.
type Read<Answer> = unsafe extern "C" fn(
    text: *const u8,
    text_len: usize,
    areas: *mut u32,
    areas_len: usize,
    symbols: *mut u32,
    symbols_len: usize,
    values: *mut u8,
    values_len: usize,
    masks: *mut u8,
    masks_len: usize,
    fixups: *mut u32,
    fixups_len: usize,
) -> Answer;

extern "C" {
    /// The plain reading.
    fn gatecobalt_read_plain(
        text: *const u8,
        text_len: usize,
        areas: *mut u32,
        areas_len: usize,
        symbols: *mut u32,
        symbols_len: usize,
        values: *mut u8,
        values_len: usize,
        masks: *mut u8,
        masks_len: usize,
        fixups: *mut u32,
        fixups_len: usize,
    ) -> ReadNumbers;
    /// The ended reading.
    fn gatecobalt_read_ended(
        text: *const u8,
        text_len: usize,
        areas: *mut u32,
        areas_len: usize,
        symbols: *mut u32,
        symbols_len: usize,
        values: *mut u8,
        values_len: usize,
        masks: *mut u8,
        masks_len: usize,
        fixups: *mut u32,
        fixups_len: usize,
    ) -> EndedNumbers;
    /// A text's header.
    fn gatecobalt_header(text: *const u8, text_len: usize) -> HeaderNumbers;
    /// The target of a fixup.
    fn gatecobalt_target(
        mode: u32,
        big: bool,
        number: u32,
        address: u64,
        bytes: *const u8,
        bytes_len: usize,
    ) -> TargetNumbers;
    /// The target of a fixup that agrees with the processor.
    fn gatecobalt_corrected_target(
        mode: u32,
        big: bool,
        number: u32,
        address: u64,
        bytes: *const u8,
        bytes_len: usize,
    ) -> TargetNumbers;
    /// Who wrote a position of a kept area last.
    fn gatecobalt_explain(
        text: *const u8,
        text_len: usize,
        id: u32,
        position: u32,
    ) -> ExplainNumbers;
    /// What changed between two texts.
    fn gatecobalt_changes(
        older: *const u8,
        older_len: usize,
        newer: *const u8,
        newer_len: usize,
        list: *mut u32,
        list_len: usize,
    ) -> ChangedNumbers;
    /// A module's code at chosen addresses.
    fn gatecobalt_place(
        text: *const u8,
        text_len: usize,
        areas: *const u64,
        areas_len: usize,
        symbols: *const u64,
        symbols_len: usize,
        out: *mut u8,
        out_len: usize,
    ) -> PlaceNumbers;
    /// The first position at which code does not match a pattern.
    fn gatecobalt_mismatch(
        values: *const u8,
        values_len: usize,
        masks: *const u8,
        masks_len: usize,
        code: *const u8,
        code_len: usize,
    ) -> usize;
    /// Numbers in a row of each table.
    fn gatecobalt_widths() -> Widths;
    /// The longest text, and the room of each lent buffer.
    fn gatecobalt_rooms() -> Rooms;
}

/// One of the readings.
fn read<Answer>(reading: Read<Answer>, text: &[u8], lent: &mut Lent) -> Answer {
    // SAFETY: `reading` is one of the two declared above. It is passed six slices with their
    // lengths; five are borrowed for writing alone, so no two of the six overlap.
    unsafe {
        reading(
            text.as_ptr(),
            text.len(),
            lent.areas.as_mut_ptr(),
            lent.areas.len(),
            lent.symbols.as_mut_ptr(),
            lent.symbols.len(),
            lent.values.as_mut_ptr(),
            lent.values.len(),
            lent.masks.as_mut_ptr(),
            lent.masks.len(),
            lent.fixups.as_mut_ptr(),
            lent.fixups.len(),
        )
    }
}

/// The plain reading of a text.
pub(crate) fn read_plain(text: &[u8], lent: &mut Lent) -> ReadNumbers {
    read(gatecobalt_read_plain, text, lent)
}

/// The ended reading of a text.
pub(crate) fn read_ended(text: &[u8], lent: &mut Lent) -> EndedNumbers {
    read(gatecobalt_read_ended, text, lent)
}

/// What a text's header tells.
pub(crate) fn header(text: &[u8]) -> HeaderNumbers {
    // SAFETY: one slice that is read, with its length.
    unsafe { gatecobalt_header(text.as_ptr(), text.len()) }
}

/// The target of a fixup.
pub(crate) fn target(
    mode: u32,
    big: bool,
    number: u32,
    address: u64,
    bytes: &[u8],
) -> TargetNumbers {
    // SAFETY: numbers, and one slice that is read, with its length.
    unsafe { gatecobalt_target(mode, big, number, address, bytes.as_ptr(), bytes.len()) }
}

/// The target of a fixup that agrees with the processor.
pub(crate) fn corrected_target(
    mode: u32,
    big: bool,
    number: u32,
    address: u64,
    bytes: &[u8],
) -> TargetNumbers {
    let (start, length) = (bytes.as_ptr(), bytes.len());
    // SAFETY: numbers, and one slice that is read.
    unsafe { gatecobalt_corrected_target(mode, big, number, address, start, length) }
}

/// Who wrote a position of a kept area last.
pub(crate) fn explain(text: &[u8], id: u32, position: u32) -> ExplainNumbers {
    // SAFETY: numbers, and one slice that is read, with its length.
    unsafe { gatecobalt_explain(text.as_ptr(), text.len(), id, position) }
}

/// What changed between two texts, into a lent list.
pub(crate) fn changes(older: &[u8], newer: &[u8], list: &mut [u32]) -> ChangedNumbers {
    // SAFETY: two slices that are read and one that is borrowed for writing alone, with their lengths.
    unsafe {
        gatecobalt_changes(
            older.as_ptr(),
            older.len(),
            newer.as_ptr(),
            newer.len(),
            list.as_mut_ptr(),
            list.len(),
        )
    }
}

/// A module's code at chosen addresses, into a lent buffer.
pub(crate) fn place(text: &[u8], areas: &[u64], symbols: &[u64], out: &mut [u8]) -> PlaceNumbers {
    // SAFETY: three slices that are read and one that is borrowed for writing alone, with their lengths.
    unsafe {
        gatecobalt_place(
            text.as_ptr(),
            text.len(),
            areas.as_ptr(),
            areas.len(),
            symbols.as_ptr(),
            symbols.len(),
            out.as_mut_ptr(),
            out.len(),
        )
    }
}

/// The first position at which code does not match a pattern.
pub(crate) fn mismatch(values: &[u8], masks: &[u8], code: &[u8]) -> usize {
    // SAFETY: three slices that are read, with their lengths.
    unsafe {
        gatecobalt_mismatch(
            values.as_ptr(),
            values.len(),
            masks.as_ptr(),
            masks.len(),
            code.as_ptr(),
            code.len(),
        )
    }
}

/// Numbers in a row of each table.
#[must_use]
pub fn widths() -> Widths {
    // SAFETY: nothing is passed.
    unsafe { gatecobalt_widths() }
}

/// The longest text, and the room that each lent buffer has to have.
#[must_use]
pub fn rooms() -> Rooms {
    // SAFETY: nothing is passed.
    unsafe { gatecobalt_rooms() }
}
