//! The static library's ended reading and its two targets.

/// Numbers in a row of each table.
pub const AREA: usize = 7;
pub const SYMBOL: usize = 5;
pub const FIXUP: usize = 9;

/// A reading's answer.
#[repr(C)]
pub struct Read {
    pub refusal: u32,
    pub finished: u32,
    pub place: usize,
    pub areas: usize,
    pub symbols: usize,
    pub lines: usize,
    pub kept: usize,
    pub positions: usize,
    pub fixups: usize,
    pub reason: u32,
    pub counted: u32,
    pub halt: usize,
}

/// A refusal, or 0 and a target.
#[repr(C)]
pub struct Targeted {
    pub refusal: u32,
    pub target: u64,
}

mod library {
    use super::{Read, Targeted};
    extern "C" {
        pub fn gatecobalt_read_ended(
            text: *const u8,
            text_length: usize,
            areas: *mut u32,
            areas_length: usize,
            symbols: *mut u32,
            symbols_length: usize,
            values: *mut u8,
            values_length: usize,
            masks: *mut u8,
            masks_length: usize,
            fixups: *mut u32,
            fixups_length: usize,
        ) -> Read;
        pub fn gatecobalt_target(
            mode: u32,
            big: bool,
            number: u32,
            address: u64,
            bytes: *const u8,
            length: usize,
        ) -> Targeted;
        pub fn gatecobalt_corrected_target(
            mode: u32,
            big: bool,
            number: u32,
            address: u64,
            bytes: *const u8,
            length: usize,
        ) -> Targeted;
    }
}

/// What a fixup refers to: an outside symbol, or a kept area of the module by its name.
pub enum Refers {
    Symbol(String),
    Area(String),
}

/// A fixup: the name of its area, where it lies there, and what it says.
pub struct Fixup {
    pub area: String,
    pub position: u64,
    pub size: usize,
    pub mode: u32,
    pub refers: Refers,
    pub value: u64,
    pub number: u32,
}

/// The fixups of a module that is read whole.
pub fn fixups(text: &[u8]) -> Vec<Fixup> {
    let (mut areas, mut symbols) = (vec![0u32; 64 * AREA], vec![0u32; 1024 * SYMBOL]);
    let (mut values, mut masks) = (vec![0u8; 65536], vec![0u8; 65536]);
    let mut rows = vec![0u32; 1024 * FIXUP];
    // SAFETY: every pointer goes with its own buffer's length.
    let read = unsafe {
        library::gatecobalt_read_ended(
            text.as_ptr(),
            text.len(),
            areas.as_mut_ptr(),
            areas.len(),
            symbols.as_mut_ptr(),
            symbols.len(),
            values.as_mut_ptr(),
            values.len(),
            masks.as_mut_ptr(),
            masks.len(),
            rows.as_mut_ptr(),
            rows.len(),
        )
    };
    assert!(read.refusal == 0 && read.finished == 1, "a module of the assembler is not read whole");
    let name = |place: u32, length: u32| {
        let (place, length) = (place as usize, length as usize);
        String::from_utf8_lossy(&text[place..place + length]).into_owned()
    };
    let areas = areas[..read.areas * AREA].chunks(AREA);
    let kept = areas.filter(|row| row[3] & 0x20 != 0 && row[2] != 0);
    let names: Vec<String> = kept.map(|row| name(row[0], row[1])).collect();
    let fixup = |row: &[u32]| Fixup {
        area: names[row[0] as usize].clone(),
        position: row[1].into(),
        size: row[2] as usize,
        mode: row[3],
        refers: match row[4] {
            1 => Refers::Symbol(name(row[5], row[6])),
            _ => Refers::Area(names[row[5] as usize].clone()),
        },
        value: row[7].into(),
        number: row[8],
    };
    rows[..read.fixups * FIXUP].chunks(FIXUP).map(fixup).collect()
}

/// The ported target.
pub fn ported(mode: u32, number: u32, address: u64, bytes: &[u8]) -> Targeted {
    // SAFETY: one slice that is read.
    unsafe { library::gatecobalt_target(mode, true, number, address, bytes.as_ptr(), bytes.len()) }
}

/// The corrected target.
pub fn corrected(mode: u32, number: u32, address: u64, bytes: &[u8]) -> Targeted {
    let (start, length) = (bytes.as_ptr(), bytes.len());
    // SAFETY: one slice that is read.
    unsafe { library::gatecobalt_corrected_target(mode, true, number, address, start, length) }
}
