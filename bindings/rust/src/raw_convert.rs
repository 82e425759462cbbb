//! The static library's function for modules of any radix. It is total, as those of `raw`.

/// The answer as numbers: a refusal and its place; or where the reading stopped, its reason and halt; or how many
/// bytes were written.
#[repr(C)]
pub(crate) struct ConvertNumbers {
    pub refusal: u32,
    pub reason: u32,
    pub place: usize,
    pub halt: usize,
    pub bytes: usize,
}

extern "C" {
    /// A module of any radix written as X.
    fn gatecobalt_convert(
        text: *const u8,
        text_len: usize,
        out: *mut u8,
        out_len: usize,
    ) -> ConvertNumbers;
}

/// A module of any radix written as X into a lent buffer.
pub(crate) fn convert(text: &[u8], out: &mut [u8]) -> ConvertNumbers {
    // SAFETY: a slice that is read and one that is borrowed for writing alone, with their lengths.
    unsafe { gatecobalt_convert(text.as_ptr(), text.len(), out.as_mut_ptr(), out.len()) }
}
