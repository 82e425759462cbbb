//! The corrected target, written a second time: from the first request of document 02, document 01's
//! table of classes and the MCS-51 manual, over signed numbers that cannot wrap.

/// How the bytes on site make the start.
#[derive(Clone, Copy, PartialEq)]
enum Start {
    Nineteen,
    Eleven,
    Joined,
    Nothing,
}

/// What a class says: how its start is made, bytes on site, bits of the start, bits of the number, and
/// how many low bits are the target's own.
struct Class {
    start: Start,
    size: usize,
    start_bits: u32,
    number_bits: u32,
    own: u32,
}

/// Document 01's table, in its order; the bits of a start as the request has them.
fn class(mode: u32) -> Class {
    let set = |bit: u32| mode >> bit & 1 == 1;
    let (zero, three, seven, eight) = (set(0), set(3), set(7), set(8));
    let of = |start, size, start_bits, number_bits, own| Class {
        start,
        size,
        start_bits,
        number_bits,
        own,
    };
    if !zero && three && seven {
        of(Start::Nineteen, 3, 19, 24, 24)
    } else if !zero && three {
        of(Start::Eleven, 2, 11, 16, 16)
    } else if !zero && seven {
        of(Start::Joined, 3, 24, 24, 24)
    } else if !zero && !eight {
        of(Start::Joined, 2, 16, 16, 16)
    } else if zero && !three && !eight {
        of(Start::Joined, 1, 8, 8, 16)
    } else {
        of(Start::Nothing, 1, 1, if eight { 24 } else { 16 }, 16)
    }
}

/// A field that is signed at its top bit.
fn signed(field: i128, bits: u32) -> i128 {
    if field & 1 << (bits - 1) == 0 {
        field
    } else {
        field - (1 << bits)
    }
}

/// Bytes in the header's order.
fn joined(big: bool, bytes: &[u8]) -> i128 {
    let digits = |sum: i128, byte: &u8| sum << 8 | i128::from(*byte);
    if big {
        bytes.iter().fold(0, digits)
    } else {
        bytes.iter().rev().fold(0, digits)
    }
}

/// The target, or none where it is refused.
pub fn corrected(mode: u32, big: bool, number: u32, address: u64, bytes: &[u8]) -> Option<u64> {
    let class = class(mode);
    if mode >= 2048 || number >= 1 << 24 || bytes.len() < class.size {
        return None;
    }
    let bytes = &bytes[..class.size];
    let high = i128::from(bytes[0] >> 5);
    let mut start = match class.start {
        Start::Nineteen => high << 16 | joined(big, &bytes[1..]),
        Start::Eleven => high << 8 | i128::from(bytes[1]),
        Start::Joined => joined(big, bytes),
        Start::Nothing => 0,
    };
    let mut number = i128::from(number);
    if mode & 0x10 == 0 {
        start = signed(start, class.start_bits);
        number = signed(number, class.number_bits);
    }
    let next = |length: u64| i128::from(address.wrapping_add(length));
    let mut target = start - number;
    if mode & 4 != 0 {
        target += next(if mode & 1 == 1 { 1 } else { 2 });
    } else if class.start == Start::Eleven {
        target = target & 0x7FF | next(2) & 0xF800;
    } else if class.start == Start::Nineteen {
        target = target & 0x7_FFFF | next(3) & 0xF8_0000;
    }
    let own = (1u64 << class.own) - 1;
    Some(target as u64 & own | address & !own)
}
