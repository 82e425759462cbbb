//! The Rust's answer as rows, and its comparison with the rows of a reading.
use crate::lent::Rows;
use crate::targets;
use gatecobalt::Counts;
use oracle::generate::Random;
use oracle::{places, Fixup, Kept, Places, Reference, Tables};

/// Numbers in an area's row that the Rust's tables give: all but the known bits.
const AREA: usize = 6;
/// Numbers in a fixup's row.
const FIXUP: usize = 9;
/// Numbers in a symbol's row.
const SYMBOL: usize = 5;

/// The area rows that the Rust's tables give: all but the known bits, which the Rust does not tell.
fn area_rows(tables: &Tables, places: &Places) -> Vec<u32> {
    let rows = tables.areas.iter().zip(&places.areas).zip(&places.flags);
    let row = |((area, place), flags): ((&oracle::Area, &oracle::Place), &u32)| {
        assert!(area.absolute == (flags & 8 != 0) && area.code == (flags & 32 != 0));
        let (given, base) = area.base.map_or((0, 0), |base| (1, base));
        [place.name as u32, place.length as u32, area.size, *flags, given, base]
    };
    rows.flat_map(row).collect()
}

/// Whether area rows are the Rust's, each with the ones in the masks of the Rust's image behind it;
/// 0 for an area that is not kept.
fn same_areas(rows: &[u32], tables: &Tables, places: &Places, kept: &[Kept]) -> bool {
    let ones = |area: &Kept| area.image.iter().map(|entry| entry.1.count_ones()).sum::<u32>();
    let mut images = kept.iter().map(ones);
    let known = tables.areas.iter();
    let known = known.map(|area| if area.kept() { images.next().unwrap_or(0) } else { 0 });
    let told = area_rows(tables, places);
    let told = told.chunks_exact(AREA).zip(known);
    rows.iter().copied().eq(told.flat_map(|(row, known)| row.iter().copied().chain([known])))
}

/// The symbol rows that the Rust's tables give.
fn symbol_rows(tables: &Tables, places: &Places) -> Vec<u32> {
    let row = |(symbol, place): (&oracle::Symbol, &oracle::Place)| {
        let area = symbol.area.map_or(0, |area| u32::from(area) + 1);
        let outside = u32::from(symbol.reference);
        [place.name as u32, place.length as u32, outside, symbol.value, area]
    };
    tables.symbols.iter().zip(&places.symbols).flat_map(row).collect()
}

/// Whether a fixup's row refers to what the Rust's fixup refers to. The Rust tells a name and no
/// place: the place has to be that of a Ref with this name and value.
fn same_reference(text: &[u8], symbols: &[u32], row: &[u32], reference: &Reference) -> bool {
    match reference {
        Reference::Area { id, value } => row[4..8] == [0, *id as u32, 0, *value as u32],
        Reference::Outside { name, value } => {
            let named = text.get(row[5] as usize..row[5] as usize + row[6] as usize);
            let listed = [row[5], row[6], 1, row[7]];
            row[4] == 1
                && row[7] as usize == *value
                && named == Some(name.as_bytes())
                && symbols.chunks_exact(SYMBOL).any(|symbol| symbol[..4] == listed)
        }
    }
}

/// Whether a fixup's row is the Rust's fixup.
fn same_fixup(text: &[u8], symbols: &[u32], id: usize, row: &[u32], fixup: &Fixup) -> bool {
    let plain = [id, fixup.position, fixup.size, usize::from(fixup.mode)];
    row[..4].iter().map(|number| *number as usize).eq(plain)
        && row[8] as usize == fixup.number
        && same_reference(text, symbols, row, &fixup.reference)
}

/// The image of all kept areas, and whether it is theirs.
fn same_image(rows: &Rows, kept: &[Kept]) -> bool {
    let image = kept.iter().flat_map(|area| &area.image);
    let held = rows.values.iter().zip(rows.masks);
    image.clone().count() == rows.values.len()
        && image.zip(held).all(|((value, mask), held)| (value, mask) == held)
}

/// All rows that the Rust's answer gives.
pub struct OwnedRows {
    pub areas: Vec<u32>,
    pub symbols: Vec<u32>,
    pub values: Vec<u8>,
    pub masks: Vec<u8>,
    pub fixups: Vec<u32>,
}

/// A fixup's row; none where two symbols have the name and value that the Rust tells.
fn fixup_row(text: &[u8], symbols: &[u32], id: usize, fixup: &Fixup) -> Option<[u32; FIXUP]> {
    let refers = match &fixup.reference {
        Reference::Area { id, value } => [0, *id as u32, 0, *value as u32],
        Reference::Outside { name, value } => {
            let meant = |row: &&[u32]| {
                let named = &text[row[0] as usize..][..row[1] as usize];
                row[2] == 1 && row[3] as usize == *value && named == name.as_bytes()
            };
            let mut meant = symbols.chunks_exact(SYMBOL).filter(meant);
            let row = meant.next().filter(|_| meant.next().is_none())?;
            [1, row[0], row[1], row[3]]
        }
    };
    let place = [id as u32, fixup.position as u32, fixup.size as u32, u32::from(fixup.mode)];
    let number = [fixup.number as u32];
    let mut row = place.into_iter().chain(refers).chain(number);
    Some(std::array::from_fn(|_| row.next().unwrap_or(0)))
}

/// The rows of a text that the Rust read.
pub fn owned_rows(text: &[u8], tables: &Tables, kept: &[Kept]) -> Option<OwnedRows> {
    let places = places(std::str::from_utf8(text).ok()?)?;
    let symbols = symbol_rows(tables, &places);
    let fixups = kept.iter().enumerate();
    let fixups = fixups.flat_map(|(id, area)| area.fixups.iter().map(move |fixup| (id, fixup)));
    let fixups: Option<Vec<_>> =
        fixups.map(|(id, fixup)| fixup_row(text, &symbols, id, fixup)).collect();
    Some(OwnedRows {
        areas: area_rows(tables, &places),
        values: kept.iter().flat_map(|area| area.image.iter().map(|entry| entry.0)).collect(),
        masks: kept.iter().flat_map(|area| area.image.iter().map(|entry| entry.1)).collect(),
        fixups: fixups?.concat(),
        symbols,
    })
}

/// What the Rust told of a text, to be held against rows.
pub struct Told<'a> {
    pub text: &'a [u8],
    pub tables: &'a Tables,
    pub kept: &'a [Kept],
}

impl Told<'_> {
    /// Whether the counts are the Rust's.
    fn counted(&self, counts: &Counts) -> bool {
        let told = Counts {
            areas: self.tables.areas.len(),
            symbols: self.tables.symbols.len(),
            lines: self.tables.pairs.len(),
            kept: self.kept.len(),
            positions: self.kept.iter().map(|area| area.image.len()).sum(),
            fixups: self.kept.iter().map(|area| area.fixups.len()).sum(),
        };
        told == *counts
    }

    /// What differs between counts and rows and what the Rust told, if anything does; else how many
    /// targets were compared.
    pub fn compare(
        &self,
        counts: &Counts,
        rows: &Rows,
        random: &mut Random,
    ) -> Result<usize, &'static str> {
        let text = std::str::from_utf8(self.text).map_err(|_| "not a text")?;
        let places = places(text).ok_or("no header")?;
        if !self.counted(counts) {
            return Err("counts");
        }
        if !same_areas(rows.areas, self.tables, &places, self.kept) {
            return Err("area rows");
        }
        if rows.symbols != symbol_rows(self.tables, &places) {
            return Err("symbol rows");
        }
        if !same_image(rows, self.kept) {
            return Err("values and masks");
        }
        self.compare_fixups(rows, random)
    }

    /// The same for fixup rows and their targets.
    fn compare_fixups(&self, rows: &Rows, random: &mut Random) -> Result<usize, &'static str> {
        let mut compared = 0;
        let mut held = rows.fixups.chunks_exact(FIXUP);
        for (id, area) in self.kept.iter().enumerate() {
            for fixup in &area.fixups {
                let row = held.next().ok_or("fixup rows")?;
                if !same_fixup(self.text, rows.symbols, id, row, fixup) {
                    return Err("fixup rows");
                }
                compared += targets::of_fixup(random, self.tables.format.big, row, fixup)?;
            }
        }
        Ok(compared)
    }
}
