//! Who wrote each position last, written a second time from document 01's rules: the unchanged Rust reads
//! the lines, and what each fragment keeps and the walk over the entries are written here.
use oracle::{class, places, readers, Area, Class, Pair};

/// How many entries a mode touches, and how many of them stay.
fn touched(mode: u16) -> (usize, usize) {
    match class(mode).expect("a mode that was read") {
        Class::Addr19 => (4, 3),
        Class::Addr11 => (3, 2),
        Class::Addr24 => (3, 3),
        Class::Addr16 => (2, 2),
        Class::Byte => (1, 1),
        Class::Other => (if mode & 0x100 != 0 { 3 } else { 2 }, 1),
    }
}

/// Which entries of a pair are kept once its fragments were worked in.
fn kept(pair: &Pair, width: usize) -> Vec<bool> {
    let mut kept = vec![false; width];
    kept.resize(width + pair.content.len(), true);
    for fragment in &pair.fragments {
        let first = usize::from(fragment.entry);
        if first >= width {
            let (all, stay) = touched(fragment.mode);
            for entry in 0..all {
                kept[first + entry] = entry < stay;
            }
        }
    }
    kept
}

/// The positions that a pair writes in an area of a size.
fn written(pair: &Pair, width: usize, size: usize) -> std::ops::Range<usize> {
    let first = pair.address as usize;
    let mut position = first;
    for keep in kept(pair, width) {
        if position >= size {
            break;
        }
        position += usize::from(keep);
    }
    first.min(size)..position.min(size)
}

/// The lines that write a position: the place of the last one's T, and how many there are.
#[derive(Clone, Copy, Default)]
pub struct Lines {
    pub last: Option<usize>,
    pub count: u32,
}

/// For each kept area, and each of its positions, the lines that write it. The text has to be one whose every
/// record is ended.
pub fn writers(text: &str) -> Option<Vec<Vec<Lines>>> {
    let (format, _) = readers::format_spec(text)?;
    let places = places(text)?;
    let area = |place: &oracle::Place| Some(readers::parse_area(format, &text[place.line..])?.0);
    let areas: Vec<Area> = places.areas.iter().map(area).collect::<Option<_>>()?;
    let size = |area: &Area| if area.kept() { area.size as usize } else { 0 };
    let mut writers: Vec<Vec<Lines>> =
        areas.iter().map(|area| vec![Lines::default(); size(area)]).collect();
    for place in places.pairs {
        let (pair, _) = readers::parse_reloc(format, &text[place..])?;
        let Some(area) = writers.get_mut(usize::from(pair.area)) else { continue };
        if !area.is_empty() {
            for position in written(&pair, usize::from(format.length), area.len()) {
                area[position] = Lines { last: Some(place), count: area[position].count + 1 };
            }
        }
    }
    Some(writers.into_iter().filter(|area| !area.is_empty()).collect())
}
