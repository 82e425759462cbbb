//! Document 01's listing, made from the Rust's answer.
use crate::rows::{Answer, Fixup, Kept, Reference, Tables};
use std::fmt::Write;

/// Positions a row.
const ROW: usize = 8;

/// One fixup's line.
fn fixup(out: &mut String, fixup: &Fixup) -> std::fmt::Result {
    write!(out, "fix {:04X} {} mode {:03X} ", fixup.position, fixup.size, fixup.mode)?;
    match &fixup.reference {
        Reference::Outside { name, value } => write!(out, "pub {name} {value:08X}")?,
        Reference::Area { id, value } => write!(out, "area {id} {value:08X}")?,
    }
    writeln!(out, " offset {:06X}", fixup.number)
}

/// A kept area's line, its rows, its symbols and its fixups.
fn area(out: &mut String, id: usize, kept: &Kept) -> std::fmt::Result {
    write!(out, "area {} id {id} ", kept.index)?;
    match kept.base {
        Some(base) => write!(out, "absolute {base:08X}")?,
        None => write!(out, "relocatable")?,
    }
    writeln!(out, " size {}", kept.image.len())?;
    for (row, positions) in kept.image.chunks(ROW).enumerate() {
        write!(out, "{:04X}", row * ROW)?;
        for (value, mask) in positions {
            write!(out, " {value:02X}/{mask:02X}")?;
        }
        writeln!(out)?;
    }
    for (name, value) in &kept.symbols {
        writeln!(out, "sym {name} {value:08X}")?;
    }
    kept.fixups.iter().try_for_each(|row| fixup(out, row))
}

/// The whole listing of a text of this length.
fn whole(out: &mut String, length: usize, tables: &Tables, kept: &[Kept]) -> std::fmt::Result {
    let (areas, symbols) = (tables.areas.len(), tables.symbols.len());
    writeln!(out, "areas {areas} symbols {symbols} lines {}", tables.pairs.len())?;
    if tables.rest == length {
        writeln!(out, "finished")?;
    } else {
        writeln!(out, "stopped at {}", tables.rest)?;
    }
    kept.iter().enumerate().try_for_each(|(id, row)| area(out, id, row))
}

/// The listing of a text that the Rust answered so, or one line that says why there is none.
pub fn listing(text: &[u8], answer: &Answer) -> String {
    match answer {
        Answer::Read(tables, kept) => {
            let mut out = String::new();
            whole(&mut out, text.len(), tables, kept).expect("text can be written to a string");
            out
        }
        Answer::Panicked(..) | Answer::PanickedParsing => "panic\n".into(),
        Answer::TooLarge(_) => "too large\n".into(),
        Answer::NoHeader => "no header\n".into(),
        Answer::NotText => "not text\n".into(),
    }
}
