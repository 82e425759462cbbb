//! The static library's functions for T and R records and for writing. Each is total, as those of `raw`.
use crate::write::Rows;

/// The answer about a text's T and R records as numbers: a refusal and its place; or 0, and how much there is.
#[repr(C)]
pub(crate) struct PairsNumbers {
    pub refusal: u32,
    pub place: usize,
    pub pairs: usize,
    pub content: usize,
    pub fragments: usize,
}

/// The answer about a written text as numbers: 15 or 16; or 0, and how many bytes were written.
#[repr(C)]
pub(crate) struct WrittenNumbers {
    pub refusal: u32,
    pub bytes: usize,
}

extern "C" {
    /// The T and R records of a text.
    fn gatecobalt_read_pairs(
        text: *const u8,
        text_len: usize,
        pairs: *mut u32,
        pairs_len: usize,
        content: *mut u8,
        content_len: usize,
        fragments: *mut u32,
        fragments_len: usize,
    ) -> PairsNumbers;
    /// A module's text, written from rows.
    fn gatecobalt_write(
        big: bool,
        width: u32,
        text: *const u8,
        text_len: usize,
        areas: *const u32,
        areas_len: usize,
        area_count: usize,
        symbols: *const u32,
        symbols_len: usize,
        symbol_count: usize,
        pairs: *const u32,
        pairs_len: usize,
        pair_count: usize,
        content: *const u8,
        content_len: usize,
        fragments: *const u32,
        fragments_len: usize,
        out: *mut u8,
        out_len: usize,
    ) -> WrittenNumbers;
}

/// The T and R records of a text, into three lent buffers.
pub(crate) fn read_pairs(
    text: &[u8],
    pairs: &mut [u32],
    content: &mut [u8],
    fragments: &mut [u32],
) -> PairsNumbers {
    // SAFETY: one slice that is read and three that are borrowed for writing alone, with their lengths.
    unsafe {
        gatecobalt_read_pairs(
            text.as_ptr(),
            text.len(),
            pairs.as_mut_ptr(),
            pairs.len(),
            content.as_mut_ptr(),
            content.len(),
            fragments.as_mut_ptr(),
            fragments.len(),
        )
    }
}

/// A module's text, written from rows into a lent buffer.
pub(crate) fn write(rows: &Rows, out: &mut [u8]) -> WrittenNumbers {
    // SAFETY: numbers, six slices that are read and one that is borrowed for writing alone, with their lengths.
    unsafe {
        gatecobalt_write(
            rows.big,
            rows.width,
            rows.text.as_ptr(),
            rows.text.len(),
            rows.areas.as_ptr(),
            rows.areas.len(),
            rows.area_count,
            rows.symbols.as_ptr(),
            rows.symbols.len(),
            rows.symbol_count,
            rows.pairs.as_ptr(),
            rows.pairs.len(),
            rows.pair_count,
            rows.content.as_ptr(),
            rows.content.len(),
            rows.fragments.as_ptr(),
            rows.fragments.len(),
            out.as_mut_ptr(),
            out.len(),
        )
    }
}
