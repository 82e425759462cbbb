//! The kinds whose drafts walk around the lines of group one.
use super::draft::{symbol, value, Addr, Draft, Entry, Line};
use super::layout::either;
use super::random::Random;

/// Lines that are ignored, and then lines that are not.
const IGNORED: [&str; 16] = [
    "O -mmcs51",
    "H 1 areas 2 global symbols",
    "M demo",
    "Mx",
    "O\t",
    "H ",
    "M A b size 1 flags 20",
    "O S a Ref0",
    "O",
    "H",
    "M",
    "Z z",
    ";",
    "m demo",
    "P 00 00",
    "",
];

/// O, H and M lines with and without one more character, and lines of unknown letters.
pub fn ignored(random: &mut Random) -> Vec<u8> {
    let mut draft = Draft::new(random);
    let known = if random.chance(60) { 8 } else { IGNORED.len() };
    for _ in 0..random.range(1, 4) {
        let at = random.below(draft.entries.len() + 1);
        let line = random.pick(&IGNORED[..known]).to_string();
        draft.entries.insert(at, Entry::Raw(line));
    }
    either(random, &draft)
}

/// What may stand behind flags: an addr that reads, then some that do not.
const ADDRS: [&str; 12] = [
    " addr 0",
    "  addr\t1",
    " addr 0  ",
    " addr",
    " addr ",
    " addr G",
    " addr 99999999999",
    " addr0",
    " add 5",
    " ADDR 0",
    " addr 0 x",
    " 0",
];

/// Areas of size 0, not code, absolute, with and without addr or with a bad one.
pub fn areas(random: &mut Random) -> Vec<u8> {
    let mut draft = Draft::new(random);
    let bad = if random.chance(50) { 0 } else { random.range(1, 2) };
    let mut odd: Vec<usize> = (0..bad).map(|_| random.below(draft.entries.len())).collect();
    odd.sort_unstable();
    for (at, entry) in draft.entries.iter_mut().enumerate() {
        if let Entry::Area { size, flags, addr, .. } = entry {
            *flags =
                random.pick(&[0x20, 0x20, 0x20, 0x28, 0x28, 0x00, 0x08, 0xFFFF_FFFF, 0x2F, 0xDF]);
            *size = random.pick(&[*size, *size, *size + 9, 0, 1]);
            *addr = match random.below(4) {
                _ if odd.contains(&at) => Addr::Raw(random.pick(&ADDRS)),
                0 => Addr::Absent,
                1 => Addr::Given(0),
                _ => Addr::Given(value(random)),
            };
        }
    }
    either(random, &draft)
}

/// Symbols before and behind areas, Ref and Def in all places, or a bad S line.
pub fn symbols(random: &mut Random) -> Vec<u8> {
    let mut draft = Draft::new(random);
    for _ in 0..random.range(2, 8) {
        let at = random.below(draft.entries.len() + 1);
        let entry = symbol(random, 50);
        draft.entries.insert(at, entry);
    }
    if random.chance(20) {
        let odd = ["S a", "S a Ref", "S a Red0", "S  Ref0", "S a Ref 0", "S a b Ref0", "Sa Ref0"];
        let at = random.below(draft.entries.len() + 1);
        draft.entries.insert(at, Entry::Raw(random.pick(&odd).into()));
    }
    draft.lines.clear();
    for _ in 0..random.range(1, 4) {
        let pair = draft.pair(random);
        draft.lines.push(Line::Pair(pair));
    }
    either(random, &draft)
}
