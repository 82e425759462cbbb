//! The kinds whose drafts walk around the lines of group two.
use super::draft::{Draft, Line, PairLines};
use super::layout::{either, PLAIN};
use super::random::Random;
use super::write::{write, Style};
use crate::rows::Radix;

/// T and P pairs that are taken, then lines that end the reading.
const PAGES: [&str; 12] = [
    "T 00 00\nP 00 00",
    "T x\r\nP y",
    "T \nP ",
    "T 00 00 00 zz\nP 00 00 00 00",
    "T 100 200\nP  ",
    "TT\nPP",
    "T\nP 00",
    "T 00 00\nP",
    "T 00 00",
    "P 00 00",
    "R 00 00 00 00",
    "T 00 00\n\nP 00",
];

/// T and P pairs among T and R pairs, and pairs that are broken.
pub fn pages(random: &mut Random) -> Vec<u8> {
    let mut draft = Draft::new(random);
    let known = if random.chance(60) { 6 } else { PAGES.len() };
    for _ in 0..random.range(1, 3) {
        let at = random.below(draft.lines.len() + 1);
        let line = random.pick(&PAGES[..known]).to_string();
        draft.lines.insert(at, Line::Raw(line));
    }
    let mut text = either(random, &draft);
    if random.chance(15) {
        let r = |at: &usize| text[*at - 1] == b'\n' && text[*at] == b'R';
        if let Some(at) = (1..text.len()).rev().find(r) {
            text.insert(at - 1, b' ');
        }
    }
    text
}

/// The draft's pairs.
pub fn pairs_of(draft: &mut Draft) -> Vec<&mut PairLines> {
    let pairs = draft.lines.iter_mut().filter_map(|line| match line {
        Line::Pair(pair) => Some(pair),
        Line::Raw(_) => None,
    });
    pairs.collect()
}

/// Parts of a fragment, and fragments that do not read.
const TAILS: [&str; 16] = [
    " 00",
    " 00 03",
    " 00 03 00",
    " 00 03 00 ",
    " 0",
    " F0",
    " F0 13",
    " F8 00 03 00 00",
    "x",
    " 00 03 00 x",
    " 00 999 00 00",
    " 00 03 999 00",
    " FF FF 03 00 00",
    "  \t",
    " 00\t03",
    " ,",
];

/// A last fragment that is partial or does not read.
pub fn partial(random: &mut Random) -> Vec<u8> {
    let mut draft = Draft::new(random);
    let tail = random.pick(&TAILS).to_string();
    let mut pairs = pairs_of(&mut draft);
    let last = pairs.len() - 1;
    let at = if random.chance(70) { last } else { random.below(last + 1) };
    pairs[at].tail = tail;
    either(random, &draft)
}

/// Modes of one byte and of two, and the escapes that do not read.
pub fn modes(random: &mut Random) -> Vec<u8> {
    let mut draft = Draft::new(random);
    let pair = draft.pair(random);
    draft.lines.push(Line::Pair(pair));
    if draft.format.radix == Radix::Hex && random.chance(30) {
        let tail =
            random.pick(&[" F8 00 03 00 00", " FF 07 03 00 00", " EF 03 00 00", " F7 FF 04 00 00"]);
        if let Some(pair) = pairs_of(&mut draft).pop() {
            pair.tail = tail.into();
        }
    }
    write(random, &draft, Style { escaped: 70, ..PLAIN })
}
