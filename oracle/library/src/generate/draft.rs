//! A module before it is written, and drafts that the Rust reads to their end.
use super::random::Random;
use crate::class;
use crate::rows::{Class, Format, Fragment, Radix};

/// What stands behind an A line's flags.
#[derive(Clone)]
pub enum Addr {
    Absent,
    Given(u32),
    Raw(&'static str),
}

/// A line of group one.
#[derive(Clone)]
pub enum Entry {
    Area { name: String, size: u32, flags: u32, addr: Addr },
    Symbol { name: String, reference: bool, value: u32 },
    Raw(String),
}

/// A T and R pair; the tail is written behind the last fragment as it stands.
#[derive(Clone)]
pub struct PairLines {
    pub address: u32,
    pub content: Vec<u8>,
    pub area: u16,
    pub fragments: Vec<Fragment>,
    pub tail: String,
}

/// Lines of group two.
#[derive(Clone)]
pub enum Line {
    Pair(PairLines),
    Raw(String),
}

/// A module before it is written; the lead stands before the header and the junk behind it.
pub struct Draft {
    pub lead: String,
    pub header: Option<&'static str>,
    pub junk: &'static str,
    pub format: Format,
    pub entries: Vec<Entry>,
    pub lines: Vec<Line>,
}

/// Names, some of which look like other parts of a line.
const NAMES: [&str; 14] = [
    "_main",
    "CSEG",
    "_put",
    "a",
    "size",
    "A",
    "Ref0",
    ".__.ABS.",
    "l_x$1",
    "Def",
    "XSEG",
    "\u{b}~",
    "addr",
    "_divuint_PARM_2",
];

/// A name.
pub fn name(random: &mut Random) -> String {
    let mut name = random.pick(&NAMES).to_string();
    if random.chance(30) {
        name.push(random.pick(&['0', '9', '_', 'Z', '#']));
    }
    name
}

/// A format; hex more often than the others.
fn format(random: &mut Random) -> Format {
    Format {
        radix: random.pick(&[Radix::Hex, Radix::Hex, Radix::Decimal, Radix::Octal]),
        big: random.chance(50),
        length: random.range(2, 4) as u8,
    }
}

/// A value: small, of 16 bits, or of all 32.
pub fn value(random: &mut Random) -> u32 {
    let bits = random.pick(&[4, 8, 8, 16, 16, 24, 32]);
    (random.draw() % (1 << bits)) as u32
}

/// An A line; kept, or in one of the ways not kept.
fn area(random: &mut Random, kept: bool) -> Entry {
    let others = random.pick(&[0, 0, 0, 0x04, 0x10, 0x43, 0x100, 0xFFFF_FFD7]);
    let absolute = if random.chance(15) { 0x08 } else { 0 };
    let code = kept || random.chance(30);
    let size = if kept { random.range(1, 40) } else { random.pick(&[0, 1, 9]) };
    let size = if code && !kept { 0 } else { size };
    let given = Addr::Given(value(random));
    Entry::Area {
        name: name(random),
        size: size as u32,
        flags: others | absolute | if code { 0x20 } else { 0 },
        addr: if random.chance(60) { given } else { Addr::Absent },
    }
}

/// An S line; Ref in so many cases of a hundred.
pub fn symbol(random: &mut Random, references: usize) -> Entry {
    Entry::Symbol { name: name(random), reference: random.chance(references), value: value(random) }
}

/// Group one: symbols, then areas with symbols behind them; at least one area is kept.
fn entries(random: &mut Random) -> Vec<Entry> {
    let mut entries = Vec::new();
    for _ in 0..random.below(4) {
        entries.push(symbol(random, 75));
    }
    let areas = random.range(1, 4);
    let sure = random.below(areas);
    for index in 0..areas {
        let kept = index == sure || random.chance(60);
        entries.push(area(random, kept));
        for _ in 0..random.below(3) {
            entries.push(symbol(random, 15));
        }
    }
    entries
}

impl Draft {
    /// A draft that is read to its end and placed.
    pub fn new(random: &mut Random) -> Self {
        let (format, entries) = (format(random), entries(random));
        let (lead, lines) = (String::new(), Vec::new());
        let mut draft = Draft { lead, header: None, junk: "", format, entries, lines };
        for _ in 0..random.range(1, 5) {
            let pair = draft.pair(random);
            draft.lines.push(Line::Pair(pair));
        }
        draft
    }

    /// The size of each area of the draft, and whether it is kept.
    pub fn areas(&self) -> Vec<(u32, bool)> {
        let area = |entry: &Entry| match entry {
            Entry::Area { size, flags, .. } => Some((*size, flags & 0x20 != 0 && *size > 0)),
            _ => None,
        };
        self.entries.iter().filter_map(area).collect()
    }

    /// How many symbols the draft has.
    pub fn symbols(&self) -> usize {
        let symbol = |entry: &&Entry| matches!(entry, Entry::Symbol { .. });
        self.entries.iter().filter(symbol).count()
    }

    /// The index of a kept area, or now and then of any.
    pub fn area_index(&self, random: &mut Random) -> u16 {
        let areas = self.areas();
        let kept: Vec<_> = (0..areas.len()).filter(|index| areas[*index].1).collect();
        if kept.is_empty() || random.chance(10) {
            random.below(areas.len().max(1)) as u16
        } else {
            random.pick(&kept) as u16
        }
    }

    /// A fragment of a class at an entry, its index in its table.
    pub fn fragment(&self, random: &mut Random, class: Class, entry: usize) -> Fragment {
        let mut mode = mode_of(random, class);
        let symbols = self.symbols();
        if symbols == 0 {
            mode &= !0x02;
        }
        let index =
            if mode & 0x02 != 0 { random.below(symbols) as u16 } else { self.area_index(random) };
        Fragment { mode, entry: entry as u8, index }
    }

    /// Up to so many fragments that fit this content.
    pub fn fragments(&self, random: &mut Random, content: usize, most: usize) -> Vec<Fragment> {
        let length = usize::from(self.format.length);
        let mut fragments = Vec::new();
        for _ in 0..random.range(0, most) {
            let class = any_class(random);
            let mut fragment = self.fragment(random, class, 0);
            let touched = touched(fragment.mode);
            if touched <= content {
                fragment.entry = (length + random.range(0, content - touched)) as u8;
                fragments.push(fragment);
            }
        }
        if random.chance(60) {
            fragments.sort_by_key(|fragment| fragment.entry);
        }
        fragments
    }

    /// A pair that is placed whole or in part.
    pub fn pair(&self, random: &mut Random) -> PairLines {
        let area = self.area_index(random);
        let size = self.areas().get(usize::from(area)).map_or(0, |(size, _)| *size as usize);
        let content: Vec<u8> = (0..random.below(15)).map(|_| random.draw() as u8).collect();
        let last = if random.chance(70) { size.saturating_sub(content.len()) } else { size };
        let fragments = self.fragments(random, content.len(), 4);
        let address = random.range(0, last) as u32;
        PairLines { address, content, area, fragments, tail: String::new() }
    }
}

/// One of the six classes.
pub fn any_class(random: &mut Random) -> Class {
    use Class::*;
    random.pick(&[Addr19, Addr11, Addr24, Addr16, Byte, Byte, Other])
}

/// A mode of a class; mostly one that gives a fixup.
pub fn mode_of(random: &mut Random, wanted: Class) -> u16 {
    loop {
        let mut mode = (random.draw() % 2_048) as u16;
        if random.chance(70) {
            mode &= !0x400;
        }
        if wanted == Class::Byte && random.chance(70) {
            mode |= 0x04;
        }
        if class(mode) == Some(wanted) {
            return mode;
        }
    }
}

/// How many entries a mode touches.
pub fn touched(mode: u16) -> usize {
    match class(mode) {
        Some(Class::Addr19) => 4,
        Some(Class::Addr11 | Class::Addr24) => 3,
        Some(Class::Addr16) => 2,
        Some(Class::Byte) => 1,
        _ => 2 + usize::from(mode >> 8 & 1),
    }
}
