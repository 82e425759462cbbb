//! The Rust's answers to texts, as statements over the definition.
use crate::antt::{row, text, truth, Statement};
use oracle::generate::Random;
use oracle::{expected, places, read, Answer, Expected, Fixup, Kept, Places, Radix, Reference, Tables};

/// Images of more positions than this are not written out.
const POSITIONS: usize = 1_500;
/// Of texts longer than this only the plain reading is compared.
const LONG: usize = 20_000;

/// An area's numbers: name's place and length, size, flags, addr given, addr, and the ones in the
/// masks of the Rust's image, 0 if the area is not kept.
fn area_rows(tables: &Tables, places: &Places, kept: &[Kept]) -> Vec<u64> {
    let ones = |area: &Kept| area.image.iter().map(|entry| u64::from(entry.1.count_ones())).sum();
    let mut known = kept.iter().map(ones);
    let rows = tables.areas.iter().zip(places.areas.iter().zip(&places.flags));
    let numbers = rows.flat_map(|(area, (place, flags))| {
        assert!(area.absolute == (flags & 0x08 != 0) && area.code == (flags & 0x20 != 0));
        let (name, length) = (place.name as u64, place.length as u64);
        let (given, base) = (area.base.is_some().into(), area.base.unwrap_or(0).into());
        let known: u64 = if area.kept() { known.next().unwrap_or(0) } else { 0 };
        [name, length, area.size.into(), (*flags).into(), given, base, known]
    });
    numbers.collect()
}

/// A symbol's numbers: name's place and length, Ref, value, area plus 1 or 0.
fn symbol_rows(tables: &Tables, places: &Places) -> Vec<u64> {
    let rows = tables.symbols.iter().zip(&places.symbols);
    let numbers = rows.flat_map(|(symbol, place)| {
        let area = symbol.area.map_or(0, |area| u64::from(area) + 1);
        let (name, length) = (place.name as u64, place.length as u64);
        [name, length, symbol.reference.into(), symbol.value.into(), area]
    });
    numbers.collect()
}

/// A fixup's numbers: id of its area, position, size, mode, outside or not, value, number; then
/// the bytes of the name, or an id and 0.
fn fixup_row(home: usize, fixup: &Fixup) -> Vec<u64> {
    let (outside, value, named) = match &fixup.reference {
        Reference::Outside { name, value } => (1, *value, name.bytes().map(u64::from).collect()),
        Reference::Area { id, value } => (0, *value, vec![*id as u64, 0]),
    };
    let size = fixup.size as u64;
    let mut numbers = vec![home as u64, fixup.position as u64, size, fixup.mode.into(), outside];
    numbers.extend([value as u64, fixup.number as u64]);
    numbers.extend(named);
    numbers
}

/// The counts of an accepted text, and the place where the reading stopped.
fn counts(tables: &Tables, kept: &[Kept], stopped: Option<usize>) -> Vec<u64> {
    let (areas, symbols, lines) = (tables.areas.len(), tables.symbols.len(), tables.pairs.len());
    let positions = kept.iter().map(|area| area.image.len()).sum();
    let fixups = kept.iter().map(|area| area.fixups.len()).sum();
    let numbers = [1, areas, symbols, lines, kept.len(), positions, fixups];
    numbers.into_iter().chain(stopped).map(|number| number as u64).collect()
}

/// The rows of an accepted text; first its values and masks, if they are wanted.
fn accepted(
    bytes: &[u8],
    tables: &Tables,
    kept: &[Kept],
    stopped: Option<usize>,
    images: bool,
) -> Vec<Vec<u64>> {
    let text = std::str::from_utf8(bytes).expect("the Rust read it");
    let places = places(text).expect("a text with a header");
    let positions = kept.iter().flat_map(|area| &area.image);
    let values = positions.clone().map(|(value, _)| u64::from(*value)).collect();
    let masks = positions.map(|(_, mask)| u64::from(*mask)).collect();
    let mut rows = if images { vec![values, masks] } else { vec![] };
    rows.push(counts(tables, kept, stopped));
    rows.push(area_rows(tables, &places, kept));
    rows.push(symbol_rows(tables, &places));
    for (home, area) in kept.iter().enumerate() {
        rows.extend(area.fixups.iter().map(|fixup| fixup_row(home, fixup)));
    }
    rows
}

/// The statement about one reading of a text.
fn statement(
    name: String,
    ended: bool,
    bytes: &[u8],
    answered: Vec<Vec<u64>>,
    images: bool,
) -> Statement {
    let rows = if images { "whole" } else { "rows" };
    let computed = format!("{rows} {} {}", truth(ended), text(bytes));
    Statement { name, computed, answered }
}

/// The statements about a text: its plain reading; its ended reading too where the plain one left
/// no more than the last line end; and targets of its first fixups.
pub fn of_text(random: &mut Random, name: &str, bytes: &[u8]) -> Vec<Statement> {
    let answer = read(bytes);
    let refused =
        |number: u8, place: usize| vec![vec![0, number.into(), place as u64], vec![], vec![]];
    let (tables, kept) = match (expected(bytes, &answer), &answer) {
        (Expected::Refused(number, place), _) => {
            return vec![statement(name.into(), false, bytes, refused(number, place), false)];
        }
        (Expected::Accepted, Answer::Read(tables, kept)) => (tables, kept),
        _ => panic!("{name}: no rule tells the answer"),
    };
    let images = tables.kept_size() <= POSITIONS as u64;
    let stopped = Some(tables.rest).filter(|rest| *rest != bytes.len());
    let plain = accepted(bytes, tables, kept, stopped, images);
    let mut statements = vec![statement(name.into(), false, bytes, plain, images)];
    if bytes.len() <= LONG && matches!(&bytes[tables.rest..], b"\n" | b"\r\n") {
        let ended = match tables.format.radix {
            Radix::Hex => accepted(bytes, tables, kept, None, false),
            _ => refused(18, 0),
        };
        statements.push(statement(format!("{name}Ended"), true, bytes, ended, false));
    }
    let fixups = kept.iter().flat_map(|area| &area.fixups).take(4);
    let targets: Vec<_> = fixups.map(|fixup| of_fixup(random, tables.format.big, fixup)).collect();
    if !targets.is_empty() {
        statements.push(targets_statement(format!("{name}Targets"), targets));
    }
    statements
}

/// An address: small, or of 16, 24, 32 or all 64 bits.
pub fn address(random: &mut Random) -> usize {
    let bits = random.pick(&[4, 16, 16, 24, 32, 64]);
    (random.draw() >> (64 - bits)) as usize
}

/// The target of a fixup, from the closure that the Rust made for it: the computed side and the
/// answer.
fn of_fixup(random: &mut Random, big: bool, fixup: &Fixup) -> (String, Vec<u64>) {
    let bytes = random.draw().to_le_bytes()[..3].to_vec();
    let address = address(random);
    let target = fixup.target(&bytes, address).expect("bytes enough");
    let computed = target_call(big, fixup.mode, fixup.number, &bytes, address);
    (computed, vec![1, target as u64])
}

/// A call of the definition's target.
pub fn target_call(big: bool, mode: u16, number: usize, bytes: &[u8], address: usize) -> String {
    let bytes = row(&bytes.iter().map(|byte| u64::from(*byte)).collect::<Vec<_>>());
    format!("outcome (target {} {mode} {number} {bytes} {address})", truth(big))
}

/// One statement about several targets.
pub fn targets_statement(name: String, targets: Vec<(String, Vec<u64>)>) -> Statement {
    let (calls, answered): (Vec<_>, Vec<_>) = targets.into_iter().unzip();
    Statement { name, computed: format!("({} ∷ [])", calls.join(" ∷ ")), answered }
}
