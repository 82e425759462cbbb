//! One module of any radix written as X, held against the second writing of the rule and against the old module.
use crate::rule::{right, Right};
use gatecobalt::{convert_into, NotConverted, Reader, Records, Refers};
use oracle::{read, Answer, Kept};

/// Bytes behind the buffer that no writing may touch.
const GUARD: usize = 16;

/// What was counted.
#[derive(Default)]
pub struct Counts {
    pub texts: u64,
    /// Octal, decimal and X.
    pub radices: [u64; 3],
    pub written: u64,
    pub stopped: u64,
    pub refused: u64,
    pub fifteen: u64,
    pub bytes: u64,
    pub fixups: u64,
    pub positions: u64,
    pub differences: u64,
}

impl Counts {
    /// The sum.
    pub fn add(&mut self, other: &Counts) {
        self.texts += other.texts;
        (0..3).for_each(|radix| self.radices[radix] += other.radices[radix]);
        self.written += other.written;
        self.stopped += other.stopped;
        self.refused += other.refused;
        self.fifteen += other.fifteen;
        self.bytes += other.bytes;
        self.fixups += other.fixups;
        self.positions += other.positions;
        self.differences += other.differences;
    }

    /// Prints what a part counted.
    pub fn print(&self, part: &str, seconds: f64) {
        println!(
            "{part}: {} texts (Q D X {:?}), {} written ({} bytes, {} positions, {} fixups), {} stopped, {} refused, {} of them with 15, differences {} ({seconds:.0} s)",
            self.texts, self.radices, self.written, self.bytes, self.positions, self.fixups, self.stopped, self.refused, self.fifteen, self.differences
        );
    }
}

/// The byte that stands in a buffer before a writing.
fn pattern(at: usize) -> u8 {
    0xA5 ^ (at as u8).wrapping_mul(0x9D)
}

/// The library's answer into a buffer of so many bytes, and whether all else is as it was.
fn answer(text: &[u8], room: usize) -> Result<Result<Vec<u8>, NotConverted>, &'static str> {
    let mut out: Vec<u8> = (0..room + GUARD).map(pattern).collect();
    let answer = convert_into(text, &mut out[..room]);
    let used = answer.unwrap_or(0);
    if used > room || (used..room + GUARD).any(|at| out[at] != pattern(at)) {
        return Err("a byte behind the text, or of a module that did not go over, was touched");
    }
    Ok(answer.map(|_| out[..used].to_vec()))
}

/// Whether an answer is the refusal with this number and place.
fn is_refusal(answer: &Result<Vec<u8>, NotConverted>, number: u32, place: usize) -> bool {
    matches!(answer, Err(NotConverted::Refused(told)) if (told.refusal.number(), told.place) == (number, place))
}

/// What a fixup says: numbers, and the outside symbol that it refers to by name.
type Said = ([usize; 7], Option<String>);

/// Fixups by what they say.
fn fixups(records: &Records) -> Vec<Said> {
    let said = records.fixups().map(|row| {
        let (name, id) = match row.refers {
            Refers::Outside(name) => (Some(name.to_string()), 0),
            Refers::Area(id) => (None, id),
        };
        let (mode, value, number) = (row.mode as usize, row.value as usize, row.number as usize);
        ([row.home, row.position, row.size, mode, id, value, number], name)
    });
    said.collect()
}

/// Whether two readings give the same records, images and fixups, places aside.
fn same(old: &Records, new: &Records) -> bool {
    old.counts() == new.counts()
        && old.areas().eq(new.areas())
        && old.symbols().eq(new.symbols())
        && old
            .kept()
            .map(|kept| (kept.index, kept.values, kept.masks, kept.known_bits))
            .eq(new.kept().map(|kept| (kept.index, kept.values, kept.masks, kept.known_bits)))
        && fixups(old) == fixups(new)
}

/// Whether the unchanged Rust reads both alike: tables, images, symbols and fixups; radix and rest aside.
fn same_rust(old: &[u8], new: &[u8]) -> bool {
    let (Answer::Read(a, x), Answer::Read(b, y)) = (read(old), read(new)) else { return false };
    let kept = |one: &Kept, two: &Kept| {
        let fixups = one.fixups.iter().zip(&two.fixups).all(|(f, g)| {
            (f.position, f.size, f.mode, f.number, &f.reference)
                == (g.position, g.size, g.mode, g.number, &g.reference)
        });
        (one.index, one.base, &one.image, &one.symbols, one.fixups.len())
            == (two.index, two.base, &two.image, &two.symbols, two.fixups.len())
            && fixups
    };
    (a.format.big, a.format.length, &a.areas, &a.symbols, &a.pairs)
        == (b.format.big, b.format.length, &b.areas, &b.symbols, &b.pairs)
        && x.len() == y.len()
        && x.iter().zip(&y).all(|(one, two)| kept(one, two))
}

/// A module that goes over as this text: the plain reading of the old one and the ended reading of the new one give the same.
fn check_text(text: &[u8], written: &[u8], counts: &mut Counts) -> Result<(), &'static str> {
    match answer(text, written.len() + 5)? {
        Ok(told) if told == written => {}
        Ok(_) => return Err("another text is written"),
        Err(_) => return Err("a whole module did not go over"),
    }
    if answer(text, written.len())?.as_deref() != Ok(written) {
        return Err("just enough room is refused");
    }
    if !is_refusal(&answer(text, written.len() - 1)?, 16, 0) {
        return Err("16 is not told");
    }
    let (mut one, mut two) = (Reader::new(), Reader::new());
    let Ok(old) = one.plain(text) else { return Err("the plain reading refuses the old module") };
    let Ok(new) = two.whole(written) else { return Err("the new module is not finished") };
    if !same(&old.records(), &new.records()) {
        return Err("other records, images or fixups");
    }
    if !same_rust(text, written) {
        return Err("the Rust reads other things");
    }
    if answer(written, 65536)?.as_deref() != Ok(written) {
        return Err("converted again it is another text");
    }
    counts.written += 1;
    counts.bytes += written.len() as u64;
    counts.fixups += new.counts().fixups as u64;
    counts.positions += new.counts().positions as u64;
    Ok(())
}

/// Converts a text and holds what comes of it to the rule.
pub fn check(text: &[u8], counts: &mut Counts) -> Result<(), &'static str> {
    counts.texts += 1;
    match right(text) {
        Right::Text(written) => check_text(text, &written, counts),
        Right::Refused(number, place) => {
            counts.refused += 1;
            counts.fifteen += u64::from(number == 15);
            let told = is_refusal(&answer(text, 65536)?, number, place)
                && is_refusal(&answer(text, 0)?, number, place);
            told.then_some(()).ok_or("another refusal")
        }
        Right::Stopped(stop) => {
            counts.stopped += 1;
            let Err(NotConverted::Stopped(halt)) = answer(text, 65536)? else {
                return Err("a module that stops is not told");
            };
            let inside = (stop..=text.len()).contains(&halt.place);
            (halt.stop == stop && inside).then_some(()).ok_or("another stop")
        }
    }
}
