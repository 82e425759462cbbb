//! The rule a second time: what becomes of a module of any radix, from the unchanged Rust's reading of it.
use oracle::{ended_stop, expected, places, read, Answer, Expected, Pair, Tables};
use std::fmt::Write;

/// What becomes of a module.
pub enum Right {
    /// It is refused.
    Refused(u32, usize),
    /// Its reading stops at a place.
    Stopped(usize),
    /// It is written as this text.
    Text(Vec<u8>),
}

/// Bytes of a number in an order, each behind a space.
fn joined(out: &mut String, big: bool, count: u8, number: u32) {
    for at in 0..count {
        let place = if big { count - 1 - at } else { at };
        write!(out, " {:02X}", number >> (8 * place) & 0xFF).expect("a string");
    }
}

/// The T and R lines of a pair.
fn pair_lines(out: &mut String, tables: &Tables, pair: &Pair) {
    let (big, length) = (tables.format.big, tables.format.length);
    out.push('T');
    joined(out, big, length, pair.address);
    pair.content.iter().for_each(|byte| joined(out, big, 1, u32::from(*byte)));
    out.push_str("\nR 00 00");
    joined(out, big, 2, u32::from(pair.area));
    for fragment in &pair.fragments {
        if fragment.mode >= 0xF0 {
            joined(out, big, 1, 0xF0 | u32::from(fragment.mode >> 8));
        }
        joined(out, big, 1, u32::from(fragment.mode & 0xFF));
        joined(out, big, 1, u32::from(fragment.entry));
        joined(out, big, 2, u32::from(fragment.index));
    }
    out.push('\n');
}

/// The X text of the tables that the Rust read; the flags come from its lines, since it keeps two of them.
fn text_of(tables: &Tables, flags: &[u32]) -> Vec<u8> {
    let order = if tables.format.big { 'H' } else { 'L' };
    let mut out = format!("X{order}{}\n", tables.format.length);
    let (mut symbols, mut areas) = (tables.symbols.iter().peekable(), 0);
    loop {
        while let Some(symbol) =
            symbols.next_if(|symbol| symbol.area.map_or(0, |area| usize::from(area) + 1) == areas)
        {
            let word = if symbol.reference { "Ref" } else { "Def" };
            writeln!(out, "S {} {word}{:X}", symbol.name, symbol.value).expect("a string");
        }
        let Some(area) = tables.areas.get(areas) else { break };
        write!(out, "A {} size {:X} flags {:X}", area.name, area.size, flags[areas])
            .expect("a string");
        if let Some(addr) = area.base {
            write!(out, " addr {addr:X}").expect("a string");
        }
        out.push('\n');
        areas += 1;
    }
    tables.pairs.iter().for_each(|pair| pair_lines(&mut out, tables, pair));
    out.into_bytes()
}

/// What becomes of a text: the refusals of its ended part, 18 aside; then where it stops; then 15 for a long text.
pub fn right(text: &[u8]) -> Right {
    let answer = read(text);
    let told = expected(text, &answer);
    let refused = |told| match told {
        Expected::Refused(number, place) => Some(Right::Refused(u32::from(number), place)),
        Expected::Accepted => None,
        Expected::Untold => panic!("the Rust panicked where no refusal stands for it"),
    };
    if let (Expected::Refused(2 | 3, _), _) | (_, None) = (told, answer.tables()) {
        return refused(told).expect("a refused text");
    }
    let rest = answer.tables().expect("a header").rest;
    let Some(stop) = ended_stop(text, rest) else { return Right::Refused(4, 0) };
    let part = &text[..stop];
    let (answer, told) = if stop > rest {
        (answer, told)
    } else {
        let shorter = read(part);
        let told = expected(part, &shorter);
        (shorter, told)
    };
    if let Some(refused) = refused(told) {
        return refused;
    }
    if stop < text.len() {
        return Right::Stopped(stop);
    }
    let Answer::Read(tables, _) = &answer else { panic!("an accepted text is read") };
    let flags =
        places(std::str::from_utf8(text).expect("no byte above 127")).expect("a header").flags;
    let written = text_of(tables, &flags);
    if written.len() > 65536 {
        return Right::Refused(15, 0);
    }
    Right::Text(written)
}
