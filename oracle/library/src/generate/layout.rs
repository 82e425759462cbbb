//! The kinds whose texts walk around headers, blanks, line ends and numbers.
use super::draft::{name, Draft, Entry};
use super::random::Random;
use super::write::{write, Style};
use crate::rows::Radix;

/// The plain layout of SDCC's modules.
pub const PLAIN: Style =
    Style { blanks: 0, trailing: 0, returns: 0, zeros: 0, lower: 0, escaped: 0, unended: 5 };

/// Every layout that the rules allow.
const LOOSE: Style =
    Style { blanks: 30, trailing: 30, returns: 40, zeros: 20, lower: 40, escaped: 20, unended: 30 };

/// Well formed, in the plain layout.
pub fn plain(random: &mut Random) -> Vec<u8> {
    let draft = Draft::new(random);
    write(random, &draft, PLAIN)
}

/// Well formed, with odd blanks, line ends, zeros and cases.
pub fn layout(random: &mut Random) -> Vec<u8> {
    let draft = Draft::new(random);
    write(random, &draft, LOOSE)
}

/// The draft in one of the two layouts.
pub fn either(random: &mut Random, draft: &Draft) -> Vec<u8> {
    let style = if random.chance(70) { PLAIN } else { LOOSE };
    write(random, draft, style)
}

/// One line end that is a lone CR, doubled, turned around or gone.
pub fn line_ends(random: &mut Random) -> Vec<u8> {
    let mut text = layout(random);
    let ends: Vec<_> = (0..text.len()).filter(|at| text[*at] == b'\n').collect();
    let odd = random.pick(&["\r", "\n\n", "\r\r\n", "\n\r", "", "\r\n\r\n", " \n ", "\u{c}\n"]);
    if !ends.is_empty() {
        let at = random.pick(&ends[ends.len() / 2..]);
        text.splice(at..=at, odd.bytes());
    }
    text
}

/// Numbers at a radix's edges; the first five read in their radix, at least as numbers.
fn edge_numbers(radix: Radix) -> Vec<&'static str> {
    let edges = match radix {
        Radix::Hex => "FF|0ff|000000000000FF|FFFFFFFF|0FFFFFFFF|100|100000000|G||0x1|-1",
        Radix::Decimal => "255|0255|0000000000255|4294967295|04294967295|256|4294967296|A||1F|+1",
        Radix::Octal => "377|0377|00000000000377|37777777777|037777777777|400|40000000000|8||19|A",
    };
    edges.split('|').collect()
}

/// Where the word around a place begins and ends, without a Ref or Def in front of it.
fn word_around(text: &[u8], at: usize) -> std::ops::Range<usize> {
    let inner = |byte: &&u8| !byte.is_ascii_whitespace();
    let start = at - text[..at].iter().rev().take_while(inner).count();
    let end = at + text[at..].iter().take_while(inner).count();
    let titled = text[start..end].starts_with(b"Ref") || text[start..end].starts_with(b"Def");
    start + if titled { 3 } else { 0 }..end
}

/// One number replaced by one at an edge: 255 and 256, 2^32 and one less, zeros, no digit.
pub fn numbers(random: &mut Random) -> Vec<u8> {
    let draft = Draft::new(random);
    let mut text = either(random, &draft);
    let edges = edge_numbers(draft.format.radix);
    let edge = if random.chance(60) { random.pick(&edges[..5]) } else { random.pick(&edges) };
    let digits: Vec<_> = (4..text.len()).filter(|at| text[*at].is_ascii_digit()).collect();
    if !digits.is_empty() {
        let word = word_around(&text, random.pick(&digits));
        text.splice(word, edge.bytes());
    }
    text
}

/// Whether the header is good, led by blanks or line ends, broken, or has junk behind it.
pub fn header(random: &mut Random) -> Vec<u8> {
    let mut draft = Draft::new(random);
    draft.lead = random.pick(&["", "\n", "\r\n \t", "  ", "\r", "\n\n\n"]).into();
    let bad = ["", "X", "XH", "XH5", "XM3", "YH3", "xh3", "X H3", "3HX", "\u{b}XH3", "XH1", "XL"];
    match random.below(4) {
        0 => draft.header = Some(random.pick(&bad)),
        1 => draft.junk = random.pick(&[" ", "\t ", " x", "3", "\r", "XH3", "\n"]),
        _ => (),
    }
    let name = name(random);
    draft.entries.insert(0, Entry::Raw(format!("M {name}")));
    either(random, &draft)
}
