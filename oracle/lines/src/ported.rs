//! The ported readers, called through the exports of `probe_line`. Each answers for every slice, and writes only into
//! the arrays that it is lent.

/// A row of numbers: the reason of a halt and its place; or 0, the place behind what was read, and its values.
#[repr(C)]
#[derive(Clone, Copy, Debug, PartialEq, Eq)]
pub struct Row {
    pub reason: u64,
    pub place: u64,
    pub kind: u64,
    pub name: u64,
    pub length: u64,
    pub first: u64,
    pub second: u64,
    pub third: u64,
    pub fourth: u64,
}

impl Row {
    /// Whether something was read.
    pub fn read(&self) -> bool {
        self.reason == 0
    }
}

mod exported {
    use super::Row;
    extern "C" {
        pub fn probe_number(t: *const u8, n: usize, at: usize, radix: u8) -> Row;
        pub fn probe_byte(t: *const u8, n: usize, at: usize, radix: u8) -> Row;
        pub fn probe_address(
            t: *const u8,
            n: usize,
            at: usize,
            radix: u8,
            big: bool,
            width: u8,
        ) -> Row;
        pub fn probe_index(t: *const u8, n: usize, at: usize, radix: u8, big: bool) -> Row;
        pub fn probe_mode(t: *const u8, n: usize, at: usize, radix: u8) -> Row;
        pub fn probe_header(t: *const u8, n: usize) -> Row;
        pub fn probe_line_at(t: *const u8, n: usize, at: usize) -> Row;
        pub fn probe_ignored(t: *const u8, n: usize, letters: *const u8, count: usize) -> Row;
        pub fn probe_area(t: *const u8, n: usize, radix: u8, big: bool, width: u8) -> Row;
        pub fn probe_symbol(t: *const u8, n: usize, radix: u8, big: bool, width: u8) -> Row;
        pub fn probe_entry(t: *const u8, n: usize, radix: u8, big: bool, width: u8) -> Row;
        pub fn probe_content(
            t: *const u8,
            n: usize,
            radix: u8,
            big: bool,
            width: u8,
            out: *mut u8,
        ) -> Row;
        pub fn probe_whole(
            t: *const u8,
            n: usize,
            radix: u8,
            big: bool,
            width: u8,
            out: *mut u8,
        ) -> Row;
        pub fn probe_relocation(
            t: *const u8,
            n: usize,
            radix: u8,
            big: bool,
            width: u8,
            modes: *mut u32,
            entries: *mut u32,
            indexes: *mut u32,
        ) -> Row;
    }
}

/// What a header tells, in numbers.
#[derive(Clone, Copy, Debug, PartialEq, Eq)]
pub struct Form {
    pub radix: u8,
    pub big: bool,
    pub width: u8,
}

pub fn number(t: &[u8], at: usize, radix: u8) -> Row {
    // SAFETY: one slice that is read, with its length, and numbers.
    unsafe { exported::probe_number(t.as_ptr(), t.len(), at, radix) }
}

pub fn byte(t: &[u8], at: usize, radix: u8) -> Row {
    // SAFETY: one slice that is read, with its length, and numbers.
    unsafe { exported::probe_byte(t.as_ptr(), t.len(), at, radix) }
}

pub fn address(t: &[u8], at: usize, form: Form) -> Row {
    // SAFETY: one slice that is read, with its length, and numbers.
    unsafe { exported::probe_address(t.as_ptr(), t.len(), at, form.radix, form.big, form.width) }
}

pub fn index(t: &[u8], at: usize, form: Form) -> Row {
    // SAFETY: one slice that is read, with its length, and numbers.
    unsafe { exported::probe_index(t.as_ptr(), t.len(), at, form.radix, form.big) }
}

pub fn mode(t: &[u8], at: usize, form: Form) -> Row {
    // SAFETY: one slice that is read, with its length, and numbers.
    unsafe { exported::probe_mode(t.as_ptr(), t.len(), at, form.radix) }
}

pub fn header(t: &[u8]) -> Row {
    // SAFETY: one slice that is read, with its length, and numbers.
    unsafe { exported::probe_header(t.as_ptr(), t.len()) }
}

/// The line at a place: the place behind its line end, where its bytes end, and its line end's length.
pub fn line(t: &[u8], at: usize) -> Row {
    // SAFETY: one slice that is read, with its length, and numbers.
    unsafe { exported::probe_line_at(t.as_ptr(), t.len(), at) }
}

/// The bytes of the line that stands first.
pub fn first_line(t: &[u8]) -> &[u8] {
    &t[..line(t, 0).first as usize]
}

pub fn ignored(t: &[u8], letters: &[u8]) -> Row {
    // SAFETY: two slices that are read, each with its length.
    unsafe { exported::probe_ignored(t.as_ptr(), t.len(), letters.as_ptr(), letters.len()) }
}

pub fn area(t: &[u8], form: Form) -> Row {
    // SAFETY: one slice that is read, with its length, and numbers.
    unsafe { exported::probe_area(t.as_ptr(), t.len(), form.radix, form.big, form.width) }
}

pub fn symbol(t: &[u8], form: Form) -> Row {
    // SAFETY: one slice that is read, with its length, and numbers.
    unsafe { exported::probe_symbol(t.as_ptr(), t.len(), form.radix, form.big, form.width) }
}

pub fn entry(t: &[u8], form: Form) -> Row {
    // SAFETY: one slice that is read, with its length, and numbers.
    unsafe { exported::probe_entry(t.as_ptr(), t.len(), form.radix, form.big, form.width) }
}

/// What stands in lent bytes that were not written.
pub const UNTOUCHED: u8 = 0xA5;
/// What stands in lent numbers that were not written.
pub const UNTOUCHED_NUMBER: u32 = 0xA5A5_A5A5;

pub fn content(t: &[u8], form: Form) -> (Row, [u8; 256]) {
    let mut out = [UNTOUCHED; 256];
    let Form { radix, big, width } = form;
    // SAFETY: one slice that is read, and an array of the 256 bytes that may be written.
    let row = unsafe {
        exported::probe_content(t.as_ptr(), t.len(), radix, big, width, out.as_mut_ptr())
    };
    (row, out)
}

pub fn whole(t: &[u8], form: Form) -> (Row, [u8; 256]) {
    let mut out = [UNTOUCHED; 256];
    let Form { radix, big, width } = form;
    // SAFETY: one slice that is read, and an array of the 256 bytes that may be written.
    let row =
        unsafe { exported::probe_whole(t.as_ptr(), t.len(), radix, big, width, out.as_mut_ptr()) };
    (row, out)
}

/// The columns of an R line's fragments: modes, entries and indexes.
pub type Columns = [[u32; 64]; 3];

pub fn relocation(t: &[u8], form: Form) -> (Row, Columns) {
    let mut columns = [[UNTOUCHED_NUMBER; 64]; 3];
    let [modes, entries, indexes] = &mut columns;
    let Form { radix, big, width } = form;
    // SAFETY: one slice that is read, and three arrays of the 64 numbers that may be written.
    let row = unsafe {
        exported::probe_relocation(
            t.as_ptr(),
            t.len(),
            radix,
            big,
            width,
            modes.as_mut_ptr(),
            entries.as_mut_ptr(),
            indexes.as_mut_ptr(),
        )
    };
    (row, columns)
}
