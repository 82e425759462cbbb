//! The kinds whose drafts walk around the rules of placing.
use super::draft::{any_class, mode_of, touched, Draft, Entry, Line, PairLines};
use super::layout::PLAIN;
use super::pairs::pairs_of;
use super::random::Random;
use super::write::write;
use crate::rows::Class;

/// Content of a length from the first to the last.
pub fn content(random: &mut Random, first: usize, last: usize) -> Vec<u8> {
    (0..random.range(first, last)).map(|_| random.draw() as u8).collect()
}

/// Fragments below the address length, before fragments that then borrow their numbers; mostly
/// followed by as many that give no fixup, so that there are numbers enough.
fn borrow(random: &mut Random, draft: &Draft, pair: &mut PairLines) {
    let length = usize::from(draft.format.length);
    pair.content = content(random, 4, 12);
    pair.fragments = draft.fragments(random, pair.content.len(), 4);
    let low = random.range(1, 2);
    for _ in 0..low {
        let class = any_class(random);
        let entry = random.below(length);
        let fragment = draft.fragment(random, class, entry);
        let at = random.below(pair.fragments.len() + 1);
        pair.fragments.insert(at, fragment);
    }
    if random.chance(75) {
        for _ in 0..low {
            let mut fragment = draft.fragment(random, Class::Byte, length);
            fragment.mode &= !0x04;
            pair.fragments.push(fragment);
        }
    }
}

/// Low entries and borrowed numbers.
pub fn borrowed(random: &mut Random) -> Vec<u8> {
    let mut draft = Draft::new(random);
    let mut pair = draft.pair(random);
    borrow(random, &draft, &mut pair);
    let at = random.below(draft.lines.len() + 1);
    draft.lines.insert(at, Line::Pair(pair));
    write(random, &draft, PLAIN)
}

/// A last fragment at the content's edge, or one entry further.
pub fn edge(random: &mut Random, draft: &Draft, pair: &mut PairLines, beyond: usize) {
    let class = any_class(random);
    let mode = mode_of(random, class);
    let room = touched(mode) + random.below(3);
    let length = usize::from(draft.format.length);
    pair.content = content(random, room, room);
    pair.fragments = draft.fragments(random, room, 2);
    let entry = length + room - touched(mode) + beyond;
    let mut fragment = draft.fragment(random, class, entry);
    fragment.mode = mode & !0x02;
    fragment.index = draft.area_index(random);
    pair.fragments.push(fragment);
}

/// Entries at the edge of the content, and past it.
pub fn edges(random: &mut Random) -> Vec<u8> {
    let mut draft = Draft::new(random);
    for _ in 0..random.range(1, 3) {
        let mut pair = draft.pair(random);
        let beyond = random.pick(&[0, 0, 0, 0, 0, 0, 0, 0, 0, 0, 1, 1, 2, 200]);
        edge(random, &draft, &mut pair, beyond);
        draft.lines.push(Line::Pair(pair));
    }
    write(random, &draft, PLAIN)
}

/// Indexes past the tables of areas and symbols, in fragments and in R lines.
pub fn indexes(random: &mut Random) -> Vec<u8> {
    let mut draft = Draft::new(random);
    let (areas, symbols) = (draft.areas().len(), draft.symbols());
    for _ in 0..random.range(1, 2) {
        let mut pair = draft.pair(random);
        if random.chance(20) {
            pair.area = (areas + random.below(3)) as u16;
        }
        for fragment in &mut pair.fragments {
            let past = random.pick(&[0, 0, 1, 255, 40_000]);
            match random.below(8) {
                0..=2 if fragment.mode & 2 != 0 => fragment.index = (symbols + past) as u16,
                0..=2 => fragment.index = (areas + past) as u16,
                3 if symbols > 0 => {
                    fragment.mode |= 2;
                    fragment.index = (symbols - 1) as u16;
                }
                _ => (),
            }
        }
        draft.lines.push(Line::Pair(pair));
    }
    write(random, &draft, PLAIN)
}

/// Lines across the end of their area, at it and far behind it, and lines over one another.
pub fn spans(random: &mut Random) -> Vec<u8> {
    let mut draft = Draft::new(random);
    let areas = draft.areas();
    let most = u64::MAX >> (64 - 8 * u32::from(draft.format.length));
    for pair in pairs_of(&mut draft) {
        let size = areas.get(usize::from(pair.area)).map_or(0, |(size, _)| *size);
        pair.address = match random.below(8) {
            0 => size,
            1 => size.saturating_sub(1),
            2 => size + 1,
            3 => most as u32,
            4 => 0,
            _ => random.range(0, size as usize) as u32,
        };
    }
    write(random, &draft, PLAIN)
}

/// Fragments that touch the same entries, so that later ones see what earlier ones left.
pub fn overlaps(random: &mut Random) -> Vec<u8> {
    let mut draft = Draft::new(random);
    for _ in 0..random.range(1, 2) {
        let mut pair = draft.pair(random);
        pair.content = content(random, 4, 7);
        pair.fragments = draft.fragments(random, pair.content.len(), 8);
        draft.lines.push(Line::Pair(pair));
    }
    write(random, &draft, PLAIN)
}

/// Makes the first area a kept one of this size, so that nothing ends a walk in it early.
pub fn roomy(draft: &mut Draft, room: u32) {
    let areas = draft.entries.iter_mut().find_map(|entry| match entry {
        Entry::Area { size, flags, .. } => Some((size, flags)),
        _ => None,
    });
    if let Some((size, flags)) = areas {
        (*size, *flags) = (room, 0x20);
    }
}
