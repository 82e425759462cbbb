//! Where the records of a text stand. The source tells no places: its own readers are asked once
//! more, in the order in which `parse_module` asks them.
use super::super::{
    format_spec, ignore_line, nl, parse_area, parse_number, parse_reloc, parse_symbol,
    parse_symdefref, space1, tag, tuple, Endian, IResult, Radix,
};

/// A line's place, and its name's place and length.
#[derive(Clone, Copy, Debug, PartialEq, Eq)]
pub struct Place {
    pub line: usize,
    pub name: usize,
    pub length: usize,
}

/// The places of a text's records; a pair's is its T line's. Beside them the flags of each area
/// as they were read, of which the source keeps two.
#[derive(Clone, Debug, Default, PartialEq, Eq)]
pub struct Places {
    pub ignored: usize,
    pub areas: Vec<Place>,
    pub flags: Vec<u32>,
    pub symbols: Vec<Place>,
    pub pairs: Vec<usize>,
    pub pages: usize,
}

/// What is left of a text of this length: its place.
fn at(whole: usize, rest: &str) -> usize {
    whole - rest.len()
}

/// Behind one line end.
fn behind_end(rest: &str) -> &str {
    rest.strip_prefix("\r\n").unwrap_or(&rest[1..])
}

/// The place of a line that `rest` leads with a line end, and of the name behind its letter.
fn place(whole: usize, rest: &str, name: &str) -> Place {
    let line = behind_end(rest);
    let blank = |letter| letter == ' ' || letter == '\t';
    Place {
        line: at(whole, line),
        name: at(whole, line[1..].trim_start_matches(blank)),
        length: name.len(),
    }
}

/// The flags of an A line that the source took, which `rest` leads with a line end.
fn flags(form: (Radix, Endian, u8), rest: &str) -> u32 {
    let (lead, number) = (|| (space1, parse_symbol, space1), || parse_number(form));
    let line: IResult<_, _> = tuple((
        tag("A"),
        tuple(lead()),
        tuple((tag("size"), space1, number(), space1)),
        tuple((tag("flags"), space1, number())),
    ))(behind_end(rest));
    line.map_or(0, |(_, (_, _, _, (_, _, flags)))| flags)
}

/// Group one, from `rest` on; answers what is left.
fn entries<'a>(
    whole: usize,
    form: (Radix, Endian, u8),
    mut rest: &'a str,
    places: &mut Places,
) -> &'a str {
    loop {
        if let Ok((next, ())) = nl(ignore_line("OHM"))(rest) {
            places.ignored += 1;
            rest = next;
        } else if let Ok((next, area)) = nl(parse_area(form))(rest) {
            places.areas.push(place(whole, rest, &area.name));
            places.flags.push(flags(form, rest));
            rest = next;
        } else if let Ok((next, symbol)) = nl(parse_symdefref(form))(rest) {
            places.symbols.push(place(whole, rest, &symbol.symbol));
            rest = next;
        } else {
            return rest;
        }
    }
}

/// The places of a text's records; none without a header.
pub fn places(text: &str) -> Option<Places> {
    let whole = text.len();
    let (rest, form) = format_spec(text).ok()?;
    let mut places = Places::default();
    let mut rest = entries(whole, form, rest, &mut places);
    loop {
        if let Ok((next, _)) = nl(parse_reloc(form))(rest) {
            places.pairs.push(at(whole, behind_end(rest)));
            rest = next;
        } else {
            let page = nl(ignore_line("T"))(rest).and_then(|(next, ())| nl(ignore_line("P"))(next));
            let Ok((next, ())) = page else {
                return Some(places);
            };
            places.pages += 1;
            rest = next;
        }
    }
}
