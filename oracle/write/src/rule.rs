//! The rule of writing, a second time: from rows to text, and 15 by reading that text with the unchanged Rust.
use gatecobalt::{Rows, FRAGMENT_WIDTH, PAIR_WIDTH};
use oracle::{expected, read, Answer, Expected, Tables};
use std::fmt::Write;

/// Numbers in a row of an area and of a symbol.
const AREA_WIDTH: usize = 7;
const SYMBOL_WIDTH: usize = 5;

/// An area as its row says; past the rows all numbers are 0.
#[derive(PartialEq)]
struct Area<'a> {
    name: &'a [u8],
    size: u32,
    flags: u32,
    addr: Option<u32>,
}

/// A symbol, and behind how many areas it stands.
struct Symbol<'a> {
    name: &'a [u8],
    outside: bool,
    value: u32,
    behind: u32,
}

/// A pair.
struct Pair<'a> {
    address: u32,
    area: u32,
    content: &'a [u8],
    fragments: &'a [u32],
}

/// A number of a row, or 0.
fn cell(rows: &[u32], width: usize, row: usize, column: usize) -> u32 {
    let at = row.checked_mul(width).and_then(|start| start.checked_add(column));
    at.and_then(|at| rows.get(at)).copied().unwrap_or(0)
}

/// The bytes of a name, or none where they do not lie in the text.
fn name(text: &[u8], at: u32, length: u32) -> &[u8] {
    text.get(at as usize..).and_then(|rest| rest.get(..length as usize)).unwrap_or(&[])
}

fn area<'a>(rows: &Rows<'a>, i: usize) -> Area<'a> {
    let number = |column| cell(rows.areas, AREA_WIDTH, i, column);
    Area {
        name: name(rows.text, number(0), number(1)),
        size: number(2),
        flags: number(3),
        addr: (number(4) == 1).then_some(number(5)),
    }
}

fn symbol<'a>(rows: &Rows<'a>, i: usize) -> Symbol<'a> {
    let number = |column| cell(rows.symbols, SYMBOL_WIDTH, i, column);
    Symbol {
        name: name(rows.text, number(0), number(1)),
        outside: number(2) == 1,
        value: number(3),
        behind: number(4),
    }
}

/// A pair that lies in what was lent, with all that it points to.
fn pair<'a>(rows: &Rows<'a>, i: usize) -> Option<Pair<'a>> {
    let row = rows.pairs.get(i * PAIR_WIDTH..(i + 1) * PAIR_WIDTH)?;
    let whole = |number: u32| number as usize;
    let content = rows.content.get(whole(row[3])..whole(row[3]) + whole(row[4]))?;
    let first = whole(row[5]) * FRAGMENT_WIDTH;
    let fragments = rows.fragments.get(first..first + whole(row[6]) * FRAGMENT_WIDTH)?;
    Some(Pair { address: row[1], area: row[2], content, fragments })
}

/// The bytes of a number in the header's order, each behind a space; none if it has more.
fn joined(out: &mut Vec<u8>, big: bool, count: u32, number: u32) -> Option<()> {
    if u64::from(number) >= 1 << (8 * count) {
        return None;
    }
    for at in 0..count {
        let place = if big { count - 1 - at } else { at };
        byte(out, number >> (8 * place) & 0xFF);
    }
    Some(())
}

/// A byte behind a space.
fn byte(out: &mut Vec<u8>, byte: u32) {
    out.extend(format!(" {byte:02X}").bytes());
}

fn area_line(out: &mut Vec<u8>, area: &Area) {
    out.extend(b"A ");
    out.extend(area.name);
    let mut rest = format!(" size {:X} flags {:X}", area.size, area.flags);
    if let Some(addr) = area.addr {
        write!(rest, " addr {addr:X}").expect("a string");
    }
    out.extend(rest.bytes());
    out.push(b'\n');
}

fn pair_lines(out: &mut Vec<u8>, rows: &Rows, pair: &Pair) -> Option<()> {
    out.push(b'T');
    joined(out, rows.big, rows.width, pair.address)?;
    pair.content.iter().for_each(|content| byte(out, u32::from(*content)));
    out.extend(b"\nR 00 00");
    joined(out, rows.big, 2, pair.area)?;
    for fragment in pair.fragments.chunks(FRAGMENT_WIDTH) {
        match fragment[0] {
            mode if mode < 0xF0 => byte(out, mode),
            mode if mode < 0x1000 => {
                byte(out, 0xF0 | mode >> 8);
                byte(out, mode & 0xFF);
            }
            _ => return None,
        }
        joined(out, rows.big, 1, fragment[1])?;
        joined(out, rows.big, 2, fragment[2])?;
    }
    out.push(b'\n');
    Some(())
}

/// The text of some rows; none where there is no such text. It breaks off behind 65,536 bytes: a longer one is refused.
fn text(rows: &Rows) -> Option<Vec<u8>> {
    if !(2..=4).contains(&rows.width) {
        return None;
    }
    let mut out = format!("X{}{}\n", if rows.big { 'H' } else { 'L' }, rows.width).into_bytes();
    let mut done = 0;
    for number in 0..rows.symbol_count {
        let symbol = symbol(rows, number);
        while done < (symbol.behind as usize).min(rows.area_count) {
            area_line(&mut out, &area(rows, done));
            done += 1;
            (out.len() <= 65536).then_some(())?;
        }
        out.extend(b"S ");
        out.extend(symbol.name);
        out.extend(
            format!(" {}{:X}\n", if symbol.outside { "Ref" } else { "Def" }, symbol.value).bytes(),
        );
        (out.len() <= 65536).then_some(())?;
    }
    while done < rows.area_count {
        area_line(&mut out, &area(rows, done));
        done += 1;
        (out.len() <= 65536).then_some(())?;
    }
    for number in 0..rows.pair_count {
        pair_lines(&mut out, rows, &pair(rows, number)?)?;
        (out.len() <= 65536).then_some(())?;
    }
    Some(out)
}

/// Whether the tables that the Rust read are those of the rows.
fn gives_back(rows: &Rows, tables: &Tables) -> bool {
    let counts = (tables.areas.len(), tables.symbols.len(), tables.pairs.len());
    if counts != (rows.area_count, rows.symbol_count, rows.pair_count) {
        return false;
    }
    let areas = tables.areas.iter().enumerate().all(|(i, read)| {
        let area = area(rows, i);
        (read.name.as_bytes(), read.size, read.base) == (area.name, area.size, area.addr)
            && (read.absolute, read.code) == (area.flags & 8 != 0, area.flags & 0x20 != 0)
    });
    let symbols = tables.symbols.iter().enumerate().all(|(i, read)| {
        let symbol = symbol(rows, i);
        (read.name.as_bytes(), read.reference, read.value)
            == (symbol.name, symbol.outside, symbol.value)
            && read.area.map_or(0, |area| u32::from(area) + 1) == symbol.behind
    });
    let pairs = tables.pairs.iter().enumerate().all(|(i, read)| {
        let Some(pair) = pair(rows, i) else { return false };
        let fragments: Vec<u32> = read
            .fragments
            .iter()
            .flat_map(|f| [u32::from(f.mode), u32::from(f.entry), u32::from(f.index)])
            .collect();
        (read.address, u32::from(read.area), &read.content[..])
            == (pair.address, pair.area, pair.content)
            && fragments == pair.fragments
    });
    areas && symbols && pairs
}

/// What is written of some rows by the rule: a text, or none for 15.
pub fn written(rows: &Rows) -> Option<Vec<u8>> {
    let text = text(rows)?;
    let answer = read(&text);
    if expected(&text, &answer) != Expected::Accepted {
        return None;
    }
    let Answer::Read(tables, _) = &answer else { return None };
    // The plain reading ends before the last line end; all others are full.
    (tables.rest + 1 == text.len() && gives_back(rows, tables)).then_some(text)
}
