//! The kinds whose drafts stand at document 01's bounds and one past them.
use super::draft::{any_class, symbol, touched, Addr, Draft, Entry, Line, PairLines};
use super::layout::PLAIN;
use super::placing::{content, edge, roomy};
use super::random::Random;
use super::write::write;
use crate::expected::{AREAS, CONTENT, FIXUPS, FRAGMENTS, POSITIONS, SYMBOLS, TEXT};
use crate::rows::{Class, Fragment};

/// The bound, mostly; or one past it, or one before.
fn around(random: &mut Random, bound: usize) -> usize {
    random.pick(&[bound - 1, bound, bound, bound + 1, bound + 1])
}

/// A short A line.
fn short_area(random: &mut Random) -> Entry {
    let flags = random.pick(&[0x20, 0x00]);
    Entry::Area { name: "a".into(), size: random.below(4) as u32, flags, addr: Addr::Absent }
}

/// Puts entries of a sort at random places until there are so many.
fn fill(random: &mut Random, draft: &mut Draft, missing: usize, sort: fn(&mut Random) -> Entry) {
    for _ in 0..missing {
        let at = random.range(draft.entries.len() / 2, draft.entries.len());
        let entry = sort(random);
        draft.entries.insert(at, entry);
    }
}

/// So many areas.
fn set_areas(random: &mut Random, draft: &mut Draft, count: usize) {
    let missing = count.saturating_sub(draft.areas().len());
    fill(random, draft, missing, short_area);
}

/// So many symbols.
fn set_symbols(random: &mut Random, draft: &mut Draft, count: usize) {
    let missing = count.saturating_sub(draft.symbols());
    fill(random, draft, missing, |random| symbol(random, 30));
}

/// 64 and 65 areas.
pub fn many_areas(random: &mut Random) -> Vec<u8> {
    let mut draft = Draft::new(random);
    let count = around(random, AREAS);
    set_areas(random, &mut draft, count);
    write(random, &draft, PLAIN)
}

/// 1,024 and 1,025 symbols.
pub fn many_symbols(random: &mut Random) -> Vec<u8> {
    let mut draft = Draft::new(random);
    let count = around(random, SYMBOLS);
    set_symbols(random, &mut draft, count);
    write(random, &draft, PLAIN)
}

/// A pair with so many content bytes, its fragments inside it, often one at the last entry.
fn long_pair(random: &mut Random, draft: &Draft, length: usize) -> PairLines {
    let mut pair = draft.pair(random);
    pair.content = content(random, length, length);
    let reach = length.min(255 - usize::from(draft.format.length));
    pair.fragments = draft.fragments(random, reach, 6);
    let class = any_class(random);
    let last = draft.fragment(random, class, 255);
    let fits = 255 + touched(last.mode) <= usize::from(draft.format.length) + length;
    if fits || random.chance(10) {
        pair.fragments.push(last);
    }
    pair
}

/// 256 and 257 content bytes.
pub fn much_content(random: &mut Random) -> Vec<u8> {
    let mut draft = Draft::new(random);
    let room = random.pick(&[40, 300]);
    roomy(&mut draft, room);
    let length = around(random, CONTENT);
    let pair = long_pair(random, &draft, length);
    draft.lines.push(Line::Pair(pair));
    write(random, &draft, PLAIN)
}

/// A pair with so many fragments that fit.
fn rich_pair(random: &mut Random, draft: &Draft, count: usize) -> PairLines {
    let mut pair = draft.pair(random);
    pair.content = content(random, 4, 40);
    pair.fragments.clear();
    while pair.fragments.len() != count {
        pair.fragments.truncate(count);
        let missing = count - pair.fragments.len();
        let more = draft.fragments(random, pair.content.len(), missing);
        pair.fragments.extend(more);
    }
    pair
}

/// 64 and 65 fragments.
pub fn many_fragments(random: &mut Random) -> Vec<u8> {
    let mut draft = Draft::new(random);
    let count = around(random, FRAGMENTS);
    let pair = rich_pair(random, &draft, count);
    draft.lines.push(Line::Pair(pair));
    write(random, &draft, PLAIN)
}

/// Gives the areas sizes that sum to so many kept positions.
fn set_sizes(random: &mut Random, draft: &mut Draft, positions: usize) {
    let mut left = positions;
    let mut areas = draft.areas().iter().filter(|(_, kept)| *kept).count();
    for entry in &mut draft.entries {
        let Entry::Area { size, flags, .. } = entry else { continue };
        if *flags & 0x20 == 0 || *size == 0 {
            continue;
        }
        areas -= 1;
        let part = if areas == 0 { left } else { random.below(left.max(1)) };
        *size = part as u32;
        left -= part;
    }
}

/// Kept sizes of 65,536 and 65,537 in all, or far more.
pub fn large_sizes(random: &mut Random) -> Vec<u8> {
    let mut draft = Draft::new(random);
    let around = around(random, POSITIONS);
    let positions = random.pick(&[around, around, around, 70_000, 0xFFFF_FFFF]);
    set_sizes(random, &mut draft, positions);
    draft.lines.clear();
    for _ in 0..random.range(1, 3) {
        let pair = draft.pair(random);
        draft.lines.push(Line::Pair(pair));
    }
    write(random, &draft, PLAIN)
}

/// Pairs in the first area that make so many fixups in all.
fn fixup_pairs(random: &mut Random, draft: &mut Draft, count: usize) {
    roomy(draft, 40);
    draft.lines.clear();
    let mut left = count;
    while left > 0 {
        let fixups = left.min(random.range(40, FRAGMENTS));
        let mut pair = draft.pair(random);
        (pair.area, pair.address) = (0, random.below(8) as u32);
        pair.content = content(random, 12, 12);
        pair.fragments.clear();
        for _ in 0..fixups {
            let entry = usize::from(draft.format.length) + random.below(9);
            let mode = random.pick(&[0x000, 0x080, 0x008, 0x088, 0x005]);
            pair.fragments.push(Fragment { mode, entry: entry as u8, index: 0 });
        }
        draft.lines.push(Line::Pair(pair));
        left -= fixups;
    }
}

/// 1,024 and 1,025 fixups.
pub fn many_fixups(random: &mut Random) -> Vec<u8> {
    let mut draft = Draft::new(random);
    let count = around(random, FIXUPS);
    fixup_pairs(random, &mut draft, count);
    write(random, &draft, PLAIN)
}

/// Texts of 65,536 and 65,537 bytes, filled with M lines.
pub fn long_text(random: &mut Random) -> Vec<u8> {
    let mut draft = Draft::new(random);
    let wanted = around(random, TEXT);
    let mut missing = wanted - write(random, &draft, super::write::Style::default()).len();
    while missing > 0 {
        let line = if missing > 4_000 { random.range(40, 2_000) } else { missing };
        let at = random.below(draft.entries.len() + 1);
        draft.entries.insert(at, Entry::Raw("M".repeat(line - 1)));
        missing -= line;
    }
    write(random, &draft, super::write::Style::default())
}

/// A few fixups short of the bound, then a pair whose walk meets both the bound and a symbol index
/// past the table or a missing number.
fn close_call(random: &mut Random, draft: &mut Draft) {
    let count = FIXUPS - random.below(8);
    fixup_pairs(random, draft, count);
    let Some(Line::Pair(last)) = draft.lines.last() else { return };
    let mut pair = last.clone();
    pair.fragments.truncate(12);
    let at = random.below(pair.fragments.len() + 1);
    let entry = draft.format.length + random.below(9) as u8;
    let past = Fragment { mode: 0x006, entry, index: draft.symbols() as u16 };
    let low = Fragment { mode: 0x000, entry: 0, index: 0 };
    pair.fragments.insert(at, random.pick(&[past, low]));
    draft.lines.push(Line::Pair(pair));
}

/// Breaks one rule of refusals 5 to 13.
fn break_one(random: &mut Random, draft: &mut Draft, rule: usize) {
    let mut pair = draft.pair(random);
    match rule {
        0 => return set_areas(random, draft, AREAS + 1),
        1 => return set_sizes(random, draft, POSITIONS + 1),
        2 => pair = long_pair(random, draft, CONTENT + 1),
        3 => pair = rich_pair(random, draft, FRAGMENTS + 1),
        4 => edge(random, draft, &mut pair, 1),
        5 => {
            let index = draft.symbols() as u16;
            pair.fragments.push(Fragment { mode: 0x006, entry: 0, index });
            pair.address = 0;
        }
        _ => {
            let mut fragment = draft.fragment(random, Class::Addr16, 0);
            (fragment.mode, fragment.index) = (0x000, draft.area_index(random));
            pair.fragments = vec![fragment];
            pair.address = 0;
        }
    }
    let at = random.below(draft.lines.len() + 1);
    draft.lines.insert(at, Line::Pair(pair));
}

/// Two or three rules broken in one text: which refusal comes first.
pub fn several(random: &mut Random) -> Vec<u8> {
    let mut draft = Draft::new(random);
    match random.below(40) {
        0 => set_symbols(random, &mut draft, SYMBOLS + 1),
        1..=3 => {
            close_call(random, &mut draft);
            return write(random, &draft, PLAIN);
        }
        _ => (),
    }
    let first = random.pick(&[0, 0, 1, 4, 4, 4, 4]);
    for _ in 0..random.range(2, 3) {
        let rule = random.range(first, 6);
        break_one(random, &mut draft, rule);
    }
    write(random, &draft, PLAIN)
}
