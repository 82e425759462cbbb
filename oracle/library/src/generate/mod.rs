//! A seeded generator of modules that walks around every rule of document 01.
mod bounds;
mod damage;
mod draft;
mod entries;
mod layout;
mod pairs;
mod placing;
mod random;
mod write;

pub use random::Random;
use std::path::Path;

/// The kinds of generated texts.
#[derive(Clone, Copy, Debug, PartialEq, Eq)]
pub enum Kind {
    /// Well formed, with fixups of every class, in the plain layout.
    Plain,
    /// Well formed, with odd blanks, line ends, leading zeros and cases.
    Layout,
    /// A line end that is a lone CR, doubled, turned around or gone.
    LineEnds,
    /// A number at or over 255 and 2^32, with leading zeros, or without a digit.
    Numbers,
    /// O, H and M lines and unknown letters.
    Ignored,
    /// Areas of size 0, not code, absolute, with or without addr or with a bad one.
    Areas,
    /// Symbols before and behind areas.
    Symbols,
    /// T and P pairs among T and R pairs, and broken ones.
    Pages,
    /// A last fragment that is partial or does not read.
    Partial,
    /// Modes of one byte and of two, F8 and above too.
    Modes,
    /// Entries below the address length and borrowed numbers.
    Borrowed,
    /// Entries at the edge of the content and past it.
    Edges,
    /// Indexes past the tables.
    Indexes,
    /// Lines across the end of their area and over one another.
    Spans,
    /// Fragments that touch the same entries.
    Overlaps,
    /// Headers led by blanks, broken, or with junk behind.
    Header,
    /// 64 and 65 areas.
    ManyAreas,
    /// 1,024 and 1,025 symbols.
    ManySymbols,
    /// 256 and 257 content bytes.
    MuchContent,
    /// 64 and 65 fragments.
    ManyFragments,
    /// Kept sizes of 65,536 and more in all.
    LargeSizes,
    /// 1,024 and 1,025 fixups.
    ManyFixups,
    /// Texts of 65,536 and 65,537 bytes.
    LongText,
    /// Several refusals at once.
    Several,
    /// A generated text, damaged.
    Damaged,
    /// A generated text, cut.
    Cut,
    /// A byte above 127.
    HighByte,
    /// A real module, damaged.
    RealDamaged,
    /// A real module, cut.
    RealCut,
}

use Kind::*;

/// Every kind with its share of a thousand texts.
pub const KINDS: [(Kind, usize); 29] = [
    (Plain, 170),
    (Layout, 90),
    (LineEnds, 30),
    (Numbers, 70),
    (Ignored, 35),
    (Areas, 50),
    (Symbols, 45),
    (Pages, 40),
    (Partial, 40),
    (Modes, 50),
    (Borrowed, 60),
    (Edges, 60),
    (Indexes, 50),
    (Spans, 40),
    (Overlaps, 40),
    (Header, 20),
    (ManyAreas, 6),
    (ManySymbols, 2),
    (MuchContent, 6),
    (ManyFragments, 6),
    (LargeSizes, 6),
    (ManyFixups, 2),
    (LongText, 1),
    (Several, 16),
    (Damaged, 30),
    (Cut, 15),
    (HighByte, 4),
    (RealDamaged, 11),
    (RealCut, 5),
];

/// A kind, each as often as its share says.
fn any_kind(random: &mut Random) -> Kind {
    let mut left = random.below(KINDS.iter().map(|(_, share)| share).sum());
    for (kind, share) in KINDS {
        if left < share {
            return kind;
        }
        left -= share;
    }
    Plain
}

/// A seed and the real modules that are damaged and cut.
pub struct Generator {
    seed: u64,
    real: Vec<Vec<u8>>,
}

impl Generator {
    /// A generator; without real modules it damages and cuts generated ones in their place.
    pub fn new(seed: u64, real: Vec<Vec<u8>>) -> Self {
        Generator { seed, real }
    }

    /// The kind and text of the module with this number: the same on every run.
    pub fn module(&self, number: u64) -> (Kind, Vec<u8>) {
        let mut random = Random::new(self.seed, number);
        let kind = any_kind(&mut random);
        let text = self.text(&mut random, kind);
        (kind, text)
    }

    /// A text of a kind.
    pub fn text(&self, random: &mut Random, kind: Kind) -> Vec<u8> {
        let made: fn(&mut Random) -> Vec<u8> = match kind {
            Plain => layout::plain,
            Layout => layout::layout,
            LineEnds => layout::line_ends,
            Numbers => layout::numbers,
            Ignored => entries::ignored,
            Areas => entries::areas,
            Symbols => entries::symbols,
            Pages => pairs::pages,
            Partial => pairs::partial,
            Modes => pairs::modes,
            Borrowed => placing::borrowed,
            Edges => placing::edges,
            Indexes => placing::indexes,
            Spans => placing::spans,
            Overlaps => placing::overlaps,
            Header => layout::header,
            ManyAreas => bounds::many_areas,
            ManySymbols => bounds::many_symbols,
            MuchContent => bounds::much_content,
            ManyFragments => bounds::many_fragments,
            LargeSizes => bounds::large_sizes,
            ManyFixups => bounds::many_fixups,
            LongText => bounds::long_text,
            Several => bounds::several,
            Damaged | Cut | HighByte | RealDamaged | RealCut => return self.harmed(random, kind),
        };
        made(random)
    }

    /// A damaged or cut text.
    fn harmed(&self, random: &mut Random, kind: Kind) -> Vec<u8> {
        let real = matches!(kind, RealDamaged | RealCut) && !self.real.is_empty();
        let text = match random.below(3) {
            _ if real => self.real[random.below(self.real.len())].clone(),
            0 => layout::layout(random),
            1 => placing::overlaps(random),
            _ => layout::plain(random),
        };
        match kind {
            Cut | RealCut => damage::cut(random, text),
            HighByte => damage::high_byte(random, text),
            _ => damage::damaged(random, text),
        }
    }
}

/// The modules of a folder in order of their names, each with its name.
pub fn folder(path: &Path) -> std::io::Result<Vec<(String, Vec<u8>)>> {
    let mut files = Vec::new();
    for entry in std::fs::read_dir(path)? {
        let entry = entry?;
        let name = entry.file_name().to_string_lossy().into_owned();
        files.push((name, std::fs::read(entry.path())?));
    }
    files.sort();
    Ok(files)
}
