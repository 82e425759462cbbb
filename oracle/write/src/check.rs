//! One module written back, and one set of rows, held against the second writing of the rule.
use crate::random::Owned;
use crate::rule;
use gatecobalt::{
    header, pairs, Fault, NotWhole, Reader, Records, Refers, Refusal, Rows, PAIR_WIDTH,
};
use oracle::{read, Answer, Kept};

/// Bytes behind the buffer that no writing may touch.
const GUARD: usize = 16;

/// What was counted.
#[derive(Default)]
pub struct Counts {
    pub texts: u64,
    pub not_taken: u64,
    pub written: u64,
    pub refused: u64,
    pub bytes: u64,
    /// By order and address length.
    pub forms: [u64; 6],
    pub differences: u64,
}

impl Counts {
    /// The sum.
    pub fn add(&mut self, other: &Counts) {
        self.texts += other.texts;
        self.not_taken += other.not_taken;
        self.written += other.written;
        self.refused += other.refused;
        self.bytes += other.bytes;
        (0..6).for_each(|form| self.forms[form] += other.forms[form]);
        self.differences += other.differences;
    }

    /// Prints what a part counted.
    pub fn print(&self, part: &str, seconds: f64) {
        println!(
            "{part}: {} texts, {} refused or stopped, {} written, {} refused with 15, {} bytes, L2 L3 L4 H2 H3 H4 {:?}, differences {} ({seconds:.0} s)",
            self.texts, self.not_taken, self.written, self.refused, self.bytes, self.forms, self.differences
        );
    }

    /// One more text of a form.
    fn count(&mut self, rows: &Rows, written: Option<&Vec<u8>>) {
        match written {
            Some(text) => {
                self.written += 1;
                self.bytes += text.len() as u64;
                self.forms[rows.width as usize - 2 + 3 * usize::from(rows.big)] += 1;
            }
            None => self.refused += 1,
        }
    }
}

/// The byte that stands in a buffer before a writing.
fn pattern(at: usize) -> u8 {
    0xA5 ^ (at as u8).wrapping_mul(0x9D)
}

/// The library's answer into a buffer of so many bytes: the text, or the refusal; and whether all else is as it was.
fn answer(rows: &Rows, room: usize) -> Result<Result<Vec<u8>, Refusal>, &'static str> {
    let mut out: Vec<u8> = (0..room + GUARD).map(pattern).collect();
    let answer = rows.write_into(&mut out[..room]);
    let used = answer.unwrap_or(0);
    if used > room || (used..room + GUARD).any(|at| out[at] != pattern(at)) {
        return Err("a byte behind the text, or on a refusal, was touched");
    }
    Ok(answer.map(|_| out[..used].to_vec()))
}

/// Holds rows to the rule: with all room, with just enough, and with a byte too little.
pub fn check_rows(rows: &Rows, counts: &mut Counts) -> Result<Option<Vec<u8>>, &'static str> {
    let right = rule::written(rows);
    counts.count(rows, right.as_ref());
    let Some(text) = right else {
        let told = [answer(rows, 65536)?, answer(rows, 0)?];
        return if told == [Err(Refusal::NotGivenBack), Err(Refusal::NotGivenBack)] {
            Ok(None)
        } else {
            Err("15 is not told")
        };
    };
    match answer(rows, text.len() + 5)? {
        Ok(written) if written == text => {}
        Ok(_) => return Err("another text is written"),
        Err(_) => return Err("it is refused"),
    }
    if answer(rows, text.len())? != Ok(text.clone()) {
        return Err("just enough room is refused");
    }
    if answer(rows, text.len() - 1)? != Err(Refusal::ShortText) {
        return Err("16 is not told");
    }
    Ok(Some(text))
}

/// What a fixup says: numbers, and the outside symbol that it refers to by name.
type Said = ([usize; 7], Option<String>);

/// Fixups by what they say.
fn fixups(records: &Records) -> Vec<Said> {
    let mut all = Vec::new();
    for row in records.fixups() {
        let (name, id) = match row.refers {
            Refers::Outside(name) => (Some(name.to_string()), 0),
            Refers::Area(id) => (None, id),
        };
        let numbers = [
            row.home,
            row.position,
            row.size,
            row.mode as usize,
            id,
            row.value as usize,
            row.number as usize,
        ];
        all.push((numbers, name));
    }
    all
}

/// Whether two readings give the same records, images and fixups, places aside.
fn same(old: &Records, new: &Records) -> bool {
    let kept = |records: &Records| -> Vec<(usize, Vec<u8>, Vec<u8>)> {
        records.kept().map(|kept| (kept.index, kept.values.to_vec(), kept.masks.to_vec())).collect()
    };
    old.counts() == new.counts()
        && old.areas().eq(new.areas())
        && old.symbols().eq(new.symbols())
        && kept(old) == kept(new)
        && fixups(old) == fixups(new)
}

/// Whether the T and R records are the same, the T's places aside.
fn same_pairs(old: &[u8], new: &[u8]) -> bool {
    let read = |text| {
        let mut read = pairs(text).expect("an accepted text");
        read.pairs.iter_mut().step_by(PAIR_WIDTH).for_each(|place| *place = 0);
        read
    };
    read(old) == read(new)
}

/// Whether the unchanged Rust reads both alike: tables, images, symbols and fixups; radix and rest aside.
fn same_rust(old: &[u8], new: &[u8]) -> bool {
    let (Answer::Read(a, x), Answer::Read(b, y)) = (read(old), read(new)) else { return false };
    let kept = |one: &Kept, two: &Kept| {
        let fixups = one.fixups.iter().zip(&two.fixups).all(|(f, g)| {
            (f.position, f.size, f.mode, f.number, &f.reference)
                == (g.position, g.size, g.mode, g.number, &g.reference)
        });
        (one.index, one.base, &one.image, &one.symbols, one.fixups.len())
            == (two.index, two.base, &two.image, &two.symbols, two.fixups.len())
            && fixups
    };
    (a.format.big, a.format.length, &a.areas, &a.symbols, &a.pairs)
        == (b.format.big, b.format.length, &b.areas, &b.symbols, &b.pairs)
        && x.len() == y.len()
        && x.iter().zip(&y).all(|(one, two)| kept(one, two))
}

/// The rows of a text that is accepted and finished.
pub fn rows_of(reader: &mut Reader, text: &[u8]) -> Option<Owned> {
    let records = match reader.whole(text) {
        Ok(module) => module.records(),
        Err(NotWhole::NotEqual(read)) => read.as_read(),
        Err(_) => return None,
    };
    let pairs = pairs(text).expect("an accepted text");
    Some(Owned::of(&records.rows(&pairs), &pairs))
}

/// Writes a module back and holds what was written to the module.
pub fn check_module(text: &[u8], counts: &mut Counts) -> Result<(), &'static str> {
    counts.texts += 1;
    let (mut one, mut two) = (Reader::new(), Reader::new());
    let Some(owned) = rows_of(&mut one, text) else {
        counts.not_taken += 1;
        return Ok(());
    };
    let Some(written) = check_rows(&owned.rows(), counts)? else {
        // 15 is given to an accepted module only if its text would be too long.
        return if text.len() > 30000 { Ok(()) } else { Err("a module is not given back") };
    };
    let old = match one.whole(text) {
        Ok(module) => module.records(),
        Err(NotWhole::NotEqual(read)) => read.as_read(),
        Err(bad) => panic!("{}", Fault::from(bad)),
    };
    let Ok(new) = two.whole(&written) else { return Err("what was written is not finished") };
    let head = header(&written).expect("a header");
    if head.radix != 16 || (head.big, head.width) != (owned.big, owned.width) {
        return Err("another header");
    }
    if !same(&old, &new.records()) {
        return Err("other records, images or fixups");
    }
    if !same_pairs(text, &written) {
        return Err("other T and R records");
    }
    if !same_rust(text, &written) {
        return Err("the Rust reads other things");
    }
    let again = rows_of(&mut one, &written).expect("a finished text");
    if again.rows().write() != Ok(written) {
        Err("written again it is another text")
    } else {
        Ok(())
    }
}
