//! What a reader answers about a text, as numbers that both sides can give.
use crate::ported::{self, Form, Row};
use oracle::{readers, Area, Content, Format, Fragment, Radix, Symbol};

/// The readers that are compared. The three ignored lines are those of O, H and M, of T and of P.
#[derive(Clone, Copy, Debug, PartialEq, Eq)]
pub enum Reader {
    Number,
    Byte,
    Address,
    Index,
    Mode,
    Header,
    Ignored,
    IgnoredT,
    IgnoredP,
    Area,
    Symbol,
    Entry,
    Content,
    Whole,
    Relocation,
}

/// Every reader, in the order of its number in a recorded sample.
pub const READERS: [Reader; 15] = [
    Reader::Number,
    Reader::Byte,
    Reader::Address,
    Reader::Index,
    Reader::Mode,
    Reader::Header,
    Reader::Ignored,
    Reader::IgnoredT,
    Reader::IgnoredP,
    Reader::Area,
    Reader::Symbol,
    Reader::Entry,
    Reader::Content,
    Reader::Whole,
    Reader::Relocation,
];

/// The bytes used, and five values.
#[derive(Clone, Copy, Debug, PartialEq, Eq)]
pub struct Answer {
    pub used: u64,
    pub values: [u64; 5],
}

/// A short sum over a list of numbers.
pub fn sum(numbers: impl IntoIterator<Item = u64>) -> u64 {
    numbers.into_iter().fold(0, |sum, number| (sum * 31 + number) % 65_521)
}

/// The sum over bytes.
fn byte_sum(bytes: &[u8]) -> u64 {
    sum(bytes.iter().map(|byte| u64::from(*byte)))
}

/// The oracle's format for a form.
pub fn format_of(form: Form) -> Format {
    let radix = match form.radix {
        16 => Radix::Hex,
        10 => Radix::Decimal,
        _ => Radix::Octal,
    };
    Format { radix, big: form.big, length: form.width }
}

/// A form for the oracle's format.
pub fn form_of(format: Format) -> Form {
    let radix = match format.radix {
        Radix::Hex => 16,
        Radix::Decimal => 10,
        Radix::Octal => 8,
    };
    Form { radix, big: format.big, width: format.length }
}

/// The values of an A line.
fn area_values(name: &[u8], size: u64, absolute: bool, code: bool, addr: Option<u64>) -> [u64; 5] {
    let marks = u64::from(absolute) + 2 * u64::from(code) + 4 * u64::from(addr.is_some());
    [name.len() as u64, byte_sum(name), size, marks, addr.unwrap_or(0)]
}

/// The values of an S line.
fn symbol_values(name: &[u8], reference: bool, value: u64) -> [u64; 5] {
    [name.len() as u64, byte_sum(name), u64::from(reference), value, 0]
}

/// The values of a T line: of its content the first 256 bytes.
fn content_values(address: u64, bytes: &[u8]) -> [u64; 5] {
    let first = &bytes[..bytes.len().min(256)];
    [address, bytes.len() as u64, byte_sum(first), 0, 0]
}

/// The values of an R line: of its fragments the first 64.
fn relocation_values(area: u64, count: u64, rows: impl Iterator<Item = [u64; 3]>) -> [u64; 5] {
    [area, count, sum(rows.take(64).flatten()), 0, 0]
}

/// The unchanged Rust's answers.
pub mod rust {
    use super::*;

    /// The blanks that stand at a place: the source takes them behind a line of group one and an R line.
    fn with_blanks(text: &str, used: usize) -> u64 {
        let rest = &text.as_bytes()[used..];
        let blanks = rest.iter().take_while(|byte| **byte == b' ' || **byte == b'\t').count();
        (used + blanks) as u64
    }

    /// The answer of a reader of one number.
    fn one<T: Into<u64>>(read: readers::Used<T>) -> Option<Answer> {
        let (value, used) = read?;
        Some(Answer { used: used as u64, values: [value.into(), 0, 0, 0, 0] })
    }

    fn ignored(letters: &'static str, text: &str) -> Option<Answer> {
        let ((), used) = readers::ignore_line(letters, text)?;
        Some(Answer { used: used as u64, values: [0; 5] })
    }

    fn area(form: Form, text: &str) -> Option<Answer> {
        let (Area { name, size, absolute, code, base }, used) =
            readers::parse_area(format_of(form), text)?;
        let values = area_values(name.as_bytes(), size.into(), absolute, code, base.map(u64::from));
        Some(Answer { used: with_blanks(text, used), values })
    }

    fn symbol(form: Form, text: &str) -> Option<Answer> {
        let (Symbol { name, reference, value, .. }, used) =
            readers::parse_symdefref(format_of(form), text)?;
        let values = symbol_values(name.as_bytes(), reference, value.into());
        Some(Answer { used: with_blanks(text, used), values })
    }

    fn content(form: Form, text: &str) -> Option<Answer> {
        let (Content { address, bytes }, used) = readers::parse_content(format_of(form), text)?;
        Some(Answer { used: used as u64, values: content_values(address.into(), &bytes) })
    }

    /// A T line is used whole where the source takes it with an R line behind its line end.
    fn whole(form: Form, text: &str) -> Option<Answer> {
        let line = text.split(['\r', '\n']).next().unwrap();
        readers::parse_reloc(format_of(form), &format!("{line}\nR 0 0 0 0"))?;
        content(form, text)
    }

    /// An R line behind a T line with an address alone.
    fn relocation(form: Form, text: &str) -> Option<Answer> {
        let before = format!("T{}\n", " 0".repeat(form.width.into()));
        let both = format!("{before}{text}");
        let (pair, used) = readers::parse_reloc(format_of(form), &both)?;
        let row = |fragment: &Fragment| {
            [u64::from(fragment.mode), fragment.entry.into(), fragment.index.into()]
        };
        let values = relocation_values(
            pair.area.into(),
            pair.fragments.len() as u64,
            pair.fragments.iter().map(row),
        );
        Some(Answer { used: with_blanks(&both, used) - before.len() as u64, values })
    }

    /// What the Rust's reader answers; none where it errs.
    pub fn answer(reader: Reader, form: Form, text: &str) -> Option<Answer> {
        let format = format_of(form);
        match reader {
            Reader::Number => one(readers::parse_number(format, text)),
            Reader::Byte => one(readers::parse_byte(format, text)),
            Reader::Address => one(readers::parse_multi_number(format, text)),
            Reader::Index => one(readers::parse_area_index(format, text)),
            Reader::Mode => one(readers::parse_extended_mode(format, text)),
            Reader::Header => {
                let (found, used) = readers::format_spec(text)?;
                let form = form_of(found);
                let values = [form.radix.into(), form.big.into(), form.width.into(), 0, 0];
                Some(Answer { used: used as u64, values })
            }
            Reader::Ignored => ignored("OHM", text),
            Reader::IgnoredT => ignored("T", text),
            Reader::IgnoredP => ignored("P", text),
            Reader::Area => area(form, text),
            Reader::Symbol => symbol(form, text),
            Reader::Entry => {
                ignored("OHM", text).or_else(|| area(form, text)).or_else(|| symbol(form, text))
            }
            Reader::Content => content(form, text),
            Reader::Whole => whole(form, text),
            Reader::Relocation => relocation(form, text),
        }
    }
}

/// The port's answers.
pub mod port {
    use super::*;

    /// The answer of a row whose values are told.
    fn told(row: Row, values: [u64; 5]) -> Option<Answer> {
        row.read().then_some(Answer { used: row.place, values })
    }

    fn entry(line: &[u8], row: Row) -> Option<Answer> {
        let (from, behind) = (row.name as usize, (row.name + row.length) as usize);
        match row.kind {
            2 => {
                let addr = (row.third == 1).then_some(row.fourth);
                let (absolute, code) = (row.second & 0x08 != 0, row.second & 0x20 != 0);
                told(row, area_values(&line[from..behind], row.first, absolute, code, addr))
            }
            3 => told(row, symbol_values(&line[from..behind], row.first == 1, row.second)),
            _ => told(row, [0; 5]),
        }
    }

    /// A T line; what was lent keeps its bytes behind the content.
    fn content((row, out): (Row, [u8; 256]), form: Form, line: &[u8]) -> Option<Answer> {
        if !row.read() {
            return None;
        }
        let count = row.second as usize;
        let written = count.min(256);
        assert!(out[written..].iter().all(|byte| *byte == ported::UNTOUCHED), "{form:?} {line:?}");
        let mut bytes = out[..written].to_vec();
        bytes.resize(count, 0);
        told(row, content_values(row.first, &bytes))
    }

    /// An R line; what was lent keeps its numbers behind the fragments.
    fn relocation(
        (row, columns): (Row, ported::Columns),
        form: Form,
        line: &[u8],
    ) -> Option<Answer> {
        let written = if row.read() { (row.second as usize).min(64) } else { 0 };
        for column in &columns {
            let kept = column[written..].iter().all(|number| *number == ported::UNTOUCHED_NUMBER);
            assert!(kept, "{form:?} {line:?}");
        }
        let rows = (0..written).map(|i| columns.map(|column| u64::from(column[i])));
        told(row, relocation_values(row.first, row.second, rows))
    }

    /// What the port's reader answers; none where it halts. A line reader gets the bytes of the first line.
    pub fn answer(reader: Reader, form: Form, text: &[u8]) -> Option<Answer> {
        let line = ported::first_line(text);
        let values = |row: Row| told(row, [row.first, row.second, row.third, 0, 0]);
        match reader {
            Reader::Number => values(ported::number(text, 0, form.radix)),
            Reader::Byte => values(ported::byte(text, 0, form.radix)),
            Reader::Address => values(ported::address(text, 0, form)),
            Reader::Index => values(ported::index(text, 0, form)),
            Reader::Mode => values(ported::mode(text, 0, form)),
            Reader::Header => values(ported::header(text)),
            Reader::Ignored => values(ported::ignored(line, b"OHM")),
            Reader::IgnoredT => values(ported::ignored(line, b"T")),
            Reader::IgnoredP => values(ported::ignored(line, b"P")),
            Reader::Area => entry(line, ported::area(line, form)),
            Reader::Symbol => entry(line, ported::symbol(line, form)),
            Reader::Entry => entry(line, ported::entry(line, form)),
            Reader::Content => content(ported::content(line, form), form, line),
            Reader::Whole => content(ported::whole(line, form), form, line),
            Reader::Relocation => relocation(ported::relocation(line, form), form, line),
        }
    }
}
