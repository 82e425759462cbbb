//! The rule written a second time, from the request's words: over sets and maps of what was read.
use crate::read::{Read, Text};
use std::collections::{HashMap, HashSet};

/// A row of the list.
pub type Row = [u32; 8];

/// What a comparison has to answer.
#[derive(Debug, PartialEq, Eq)]
pub enum Expected {
    /// The text, 0 for the older and 1 for the newer, its refusal's number and place.
    Refused(u32, u32, usize),
    /// 19.
    NotFinished,
    /// The rows.
    Rows(Vec<Row>),
}

/// What a fixup refers to.
#[derive(PartialEq, Eq, Hash)]
enum Refers<'a> {
    Name(&'a [u8]),
    Area(u32),
}

/// All that makes two fixups equal: id, position, size, mode, value, number, and what they refer to.
type Key<'a> = ([u32; 6], Refers<'a>);

/// The fixups of a text by what they say, in the order of its rows.
fn fixups(text: &Text) -> Vec<Key<'_>> {
    let key = |row: &[u32]| {
        let refers = if row[4] == 1 { Refers::Name(text.part(row[5], row[6])) } else { Refers::Area(row[5]) };
        ([row[0], row[1], row[2], row[3], row[7], row[8]], refers)
    };
    text.fixups.chunks(9).map(key).collect()
}

/// The images of the kept areas: code, and not empty.
fn images(text: &Text) -> Vec<Vec<(u8, u8)>> {
    let mut cells = text.values.iter().copied().zip(text.masks.iter().copied());
    let kept = text.areas.chunks(7).filter(|row| row[3] & 0x20 != 0 && row[2] > 0);
    kept.map(|row| cells.by_ref().take(row[2] as usize).collect()).collect()
}

/// The first symbol of each name: its index and its value.
fn symbols(text: &Text) -> HashMap<&[u8], (u32, u32)> {
    let mut first = HashMap::new();
    for (index, row) in (0..).zip(text.symbols.chunks(5)) {
        first.entry(text.part(row[0], row[1])).or_insert((index, row[3]));
    }
    first
}

/// The positions of a pair of areas.
fn positions(id: u32, old: &[(u8, u8)], new: &[(u8, u8)], rows: &mut Vec<Row>) {
    for at in 0..old.len().max(new.len()) {
        let wide = |cell: &(u8, u8)| (u32::from(cell.0), u32::from(cell.1));
        match (old.get(at).map(wide), new.get(at).map(wide)) {
            (Some((v, m)), Some((w, k))) if (v, m) != (w, k) => rows.push([0, id, at as u32, v, m, w, k, 0]),
            (Some((v, m)), None) => rows.push([1, id, at as u32, v, m, 0, 0, 0]),
            (None, Some((w, k))) => rows.push([2, id, at as u32, 0, 0, w, k, 0]),
            _ => (),
        }
    }
}

/// The symbols in the order of the older's rows, then those of the newer alone.
fn symbol_rows(old: &Text, new: &Text, rows: &mut Vec<Row>) {
    let (olds, news) = (symbols(old), symbols(new));
    let ordered = |all: &HashMap<&[u8], (u32, u32)>| {
        let mut order: Vec<(u32, u32, Vec<u8>)> = all.iter().map(|(name, (i, v))| (*i, *v, name.to_vec())).collect();
        order.sort();
        order
    };
    for (i, value, name) in ordered(&olds) {
        match news.get(&name[..]) {
            None => rows.push([8, 0, i, 0, 0, 0, 0, 0]),
            Some((j, other)) if *other != value => rows.push([7, 0, i, *j, 0, 0, 0, 0]),
            Some(_) => (),
        }
    }
    for (j, _, name) in ordered(&news) {
        if !olds.contains_key(&name[..]) {
            rows.push([9, 0, 0, j, 0, 0, 0, 0]);
        }
    }
}

/// What changed between two texts that were read.
fn rows(old: &Text, new: &Text) -> Vec<Row> {
    let mut rows = Vec::new();
    let (olds, news) = (images(old), images(new));
    let (xs, ys) = (fixups(old), fixups(new));
    let (x_set, y_set): (HashSet<&Key>, HashSet<&Key>) = (xs.iter().collect(), ys.iter().collect());
    for id in 0..olds.len().max(news.len()) {
        let number = id as u32;
        match (olds.get(id), news.get(id)) {
            (Some(_), None) => rows.push([5, number, 0, 0, 0, 0, 0, 0]),
            (None, Some(_)) => rows.push([6, number, 0, 0, 0, 0, 0, 0]),
            (Some(a), Some(b)) => {
                positions(number, a, b, &mut rows);
                for (kind, keys, other) in [(3, &xs, &y_set), (4, &ys, &x_set)] {
                    let here = (0..).zip(keys.iter()).filter(|(_, key)| key.0[0] == number && !other.contains(key));
                    rows.extend(here.map(|(index, _)| [kind, number, index, 0, 0, 0, 0, 0]));
                }
            }
            (None, None) => (),
        }
    }
    symbol_rows(old, new, &mut rows);
    rows
}

/// What a comparison of two texts has to answer.
pub fn expected(old: &Read, new: &Read) -> Expected {
    match (old, new) {
        (Read::Refused(number, place), _) => Expected::Refused(0, *number, *place),
        (_, Read::Refused(number, place)) => Expected::Refused(1, *number, *place),
        (Read::Text(a), Read::Text(b)) if a.finished && b.finished => Expected::Rows(rows(a, b)),
        _ => Expected::NotFinished,
    }
}

/// A row with its sides exchanged.
pub fn turned(row: &Row) -> Row {
    let [kind, id, a, b, c, d, e, _] = *row;
    match kind {
        0 => [0, id, a, d, e, b, c, 0],
        1 => [2, id, a, 0, 0, b, c, 0],
        2 => [1, id, a, d, e, 0, 0, 0],
        3 => [4, id, a, 0, 0, 0, 0, 0],
        4 => [3, id, a, 0, 0, 0, 0, 0],
        5 => [6, id, 0, 0, 0, 0, 0, 0],
        6 => [5, id, 0, 0, 0, 0, 0, 0],
        7 => [7, 0, b, a, 0, 0, 0, 0],
        8 => [9, 0, 0, a, 0, 0, 0, 0],
        _ => [8, 0, b, 0, 0, 0, 0, 0],
    }
}
