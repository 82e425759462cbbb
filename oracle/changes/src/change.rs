//! A text made from another by a single change.
use oracle::generate::Random;

/// The lines of a text, each with its line end.
fn lines(text: &[u8]) -> Vec<Vec<u8>> {
    text.split_inclusive(|byte| *byte == b'\n').map(<[u8]>::to_vec).collect()
}

/// One of the lines that begin with a letter, if there is one.
fn one_of(lines: &[Vec<u8>], letter: u8, random: &mut Random) -> Option<usize> {
    let some: Vec<usize> = (0..lines.len()).filter(|at| lines[*at].first() == Some(&letter)).collect();
    (!some.is_empty()).then(|| some[random.below(some.len())])
}

/// Puts another digit, or another letter, at one place of a line behind its first two bytes.
fn another_byte(line: &mut [u8], random: &mut Random, digits: bool) {
    let fits = |byte: u8| if digits { byte.is_ascii_hexdigit() } else { byte.is_ascii_alphabetic() };
    let places: Vec<usize> = (2..line.len()).filter(|at| fits(line[*at])).collect();
    if !places.is_empty() {
        let at = places[random.below(places.len())];
        line[at] = random.pick(if digits { b"0123456789ABCDEF" } else { b"abcdxyzABC" });
    }
}

/// The place behind the A and S lines, where the pairs begin.
fn behind_tables(lines: &[Vec<u8>]) -> usize {
    lines.iter().position(|line| line.first() == Some(&b'T')).unwrap_or(lines.len())
}

/// A text with one change: a digit or letter of a line, a line more or less or elsewhere, a pair less, or none.
pub fn changed(text: &[u8], random: &mut Random) -> Vec<u8> {
    let mut lines = lines(text);
    if lines.is_empty() {
        return text.to_vec();
    }
    let any = random.below(lines.len());
    match random.below(16) {
        0..=2 => one_of(&lines, b'T', random).into_iter().for_each(|at| another_byte(&mut lines[at], random, true)),
        3..=4 => one_of(&lines, b'R', random).into_iter().for_each(|at| another_byte(&mut lines[at], random, true)),
        5..=6 => one_of(&lines, b'S', random).into_iter().for_each(|at| another_byte(&mut lines[at], random, true)),
        7 => one_of(&lines, b'S', random).into_iter().for_each(|at| another_byte(&mut lines[at], random, false)),
        8 => one_of(&lines, b'A', random).into_iter().for_each(|at| another_byte(&mut lines[at], random, true)),
        9 => drop(lines.remove(any)),
        10 => lines.insert(any, lines[any].clone()),
        11 => {
            let next = (any + 1) % lines.len();
            lines.swap(any, next);
        }
        12 => {
            if let Some(at) = one_of(&lines, b'T', random) {
                lines.drain(at..(at + 2).min(lines.len()));
            }
        }
        13 => {
            let at = random.range(1, behind_tables(&lines).max(1));
            let new: &[u8] = random.pick(&[b"S _zz Def0003\n" as &[u8], b"S _a Ref0001\n", b"A ZZ size 3 flags 20 addr 0\n"]);
            lines.insert(at.min(lines.len()), new.to_vec());
        }
        14 => {
            if let Some(at) = one_of(&lines, b'S', random) {
                let line = lines.remove(at);
                let to = random.range(1, behind_tables(&lines).max(1)).min(lines.len());
                lines.insert(to, line);
            }
        }
        _ => (),
    }
    lines.concat()
}
