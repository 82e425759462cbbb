//! Damaged and cut texts.
use super::random::Random;

/// Bytes that mean something somewhere in a module.
const TELLING: &[u8] = b" \t\r\n0123456789ABCDEFabcdefXDQHLASTRPOMGaddrsizeflagsRefDef_.";

/// A byte: mostly one that means something.
fn byte(random: &mut Random) -> u8 {
    if random.chance(90) {
        random.pick(TELLING)
    } else {
        random.below(128) as u8
    }
}

/// The lines of a text with their line ends.
fn lines(text: &[u8]) -> Vec<&[u8]> {
    text.split_inclusive(|byte| *byte == b'\n').collect()
}

/// One damage: a byte changed, inserted or removed, or a line removed, doubled or moved.
fn damage(random: &mut Random, text: &mut Vec<u8>) {
    if text.is_empty() {
        return;
    }
    let at = random.below(text.len());
    match random.below(6) {
        0 => text[at] = byte(random),
        1 => text.insert(at, byte(random)),
        2 => {
            text.remove(at);
        }
        what => {
            let mut lines = lines(text);
            let at = random.below(lines.len());
            let line = lines[at];
            if what != 4 {
                lines.remove(at);
            }
            if what != 3 {
                lines.insert(random.below(lines.len() + 1), line);
            }
            *text = lines.concat();
        }
    }
}

/// A text with one to three damages.
pub fn damaged(random: &mut Random, mut text: Vec<u8>) -> Vec<u8> {
    for _ in 0..random.pick(&[1, 1, 1, 2, 3]) {
        damage(random, &mut text);
    }
    text
}

/// A text cut behind any byte, more often near its end.
pub fn cut(random: &mut Random, mut text: Vec<u8>) -> Vec<u8> {
    let first = if random.chance(50) { text.len() * 3 / 4 } else { 0 };
    text.truncate(random.range(first, text.len()));
    text
}

/// A text with one byte above 127, or one letter of two such bytes.
pub fn high_byte(random: &mut Random, mut text: Vec<u8>) -> Vec<u8> {
    let letter: &[u8] = random.pick(&[&[0x80_u8][..], &[0xFF], &[0xC3, 0xA9], &[0xC2, 0xA0]]);
    let at = random.range(0, text.len());
    text.splice(at..at, letter.iter().copied());
    text
}
