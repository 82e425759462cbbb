//! The static library's functions on pattern books. Each is total: it answers for every file and every
//! name, and writes only into the slices that it is lent. So each call here is sound for every argument.

/// What opening tells, as numbers.
#[repr(C)]
pub(crate) struct OpenedNumbers {
    pub refusal: u32,
    pub entries: u32,
    pub place: usize,
}

/// A row of the contents, as numbers.
#[repr(C)]
pub(crate) struct EntryNumbers {
    pub name: u32,
    pub length: u32,
    pub place: u32,
    pub size: u32,
}

/// What finding tells, as numbers.
#[repr(C)]
pub(crate) struct FoundNumbers {
    pub refusal: u32,
    pub place: u32,
    pub size: u32,
}

/// What copying tells, as numbers.
#[repr(C)]
pub(crate) struct CopiedNumbers {
    pub refusal: u32,
    pub size: u32,
    pub place: usize,
}

extern "C" {
    /// A file opened.
    fn gatecobalt_book_open(book: *const u8, book_len: usize) -> OpenedNumbers;
    /// A row of the contents.
    fn gatecobalt_book_entry(book: *const u8, book_len: usize, i: u32) -> EntryNumbers;
    /// Where the pattern of a name stands.
    fn gatecobalt_book_find(
        book: *const u8,
        book_len: usize,
        name: *const u8,
        name_len: usize,
    ) -> FoundNumbers;
    /// The pattern of a name, copied.
    fn gatecobalt_book_pattern(
        book: *const u8,
        book_len: usize,
        name: *const u8,
        name_len: usize,
        values: *mut u8,
        values_len: usize,
        masks: *mut u8,
        masks_len: usize,
    ) -> CopiedNumbers;
}

/// A file opened.
pub(crate) fn open(book: &[u8]) -> OpenedNumbers {
    // SAFETY: one slice that is read, with its length.
    unsafe { gatecobalt_book_open(book.as_ptr(), book.len()) }
}

/// The i-th row of the contents.
pub(crate) fn entry(book: &[u8], i: u32) -> EntryNumbers {
    // SAFETY: one slice that is read, with its length, and a number.
    unsafe { gatecobalt_book_entry(book.as_ptr(), book.len(), i) }
}

/// Where the pattern of a name stands.
pub(crate) fn find(book: &[u8], name: &[u8]) -> FoundNumbers {
    // SAFETY: two slices that are read, with their lengths.
    unsafe { gatecobalt_book_find(book.as_ptr(), book.len(), name.as_ptr(), name.len()) }
}

/// The pattern of a name, copied into lent values and masks.
pub(crate) fn copy(book: &[u8], name: &[u8], values: &mut [u8], masks: &mut [u8]) -> CopiedNumbers {
    // SAFETY: four slices with their lengths; two are borrowed for writing alone, so neither overlaps
    // another.
    unsafe {
        gatecobalt_book_pattern(
            book.as_ptr(),
            book.len(),
            name.as_ptr(),
            name.len(),
            values.as_mut_ptr(),
            values.len(),
            masks.as_mut_ptr(),
            masks.len(),
        )
    }
}
