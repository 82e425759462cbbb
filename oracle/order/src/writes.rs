//! Which positions a pair writes. A relocated byte leaves 0/0, as a position that was never written
//! does; so the pair is read behind a line that fills its part of the area, once with 55 and once
//! with AA: what comes out equal was written.
use crate::answer::{images, Answer, Buffers};
use crate::module::{Module, Pair};

/// The text with a line that fills so many positions from the pair's address on, and the pair.
fn over(module: &Module, pair: &Pair, byte: u8, count: usize) -> Vec<u8> {
    let (area, address) = (pair.area, pair.address);
    let mut text = module.head.clone();
    let [_, a, b, c] = (address as u32).to_be_bytes();
    text.extend(format!("T {a:02X} {b:02X} {c:02X}").bytes());
    for _ in 0..count {
        text.extend(format!(" {byte:02X}").bytes());
    }
    text.extend(format!("\nR 00 00 {:02X} {:02X}\n", area >> 8, area & 0xFF).bytes());
    text.extend_from_slice(&pair.bytes);
    text
}

/// The positions of the images that a pair writes.
pub fn positions(
    buffers: &mut Buffers,
    module: &Module,
    whole: &Answer,
    pair: &Pair,
) -> Result<Vec<usize>, String> {
    let Some(&(start, size)) = images(whole).get(pair.area) else { return Ok(Vec::new()) };
    if size <= pair.address {
        return Ok(Vec::new());
    }
    // No pair writes more positions than it has content; one more shows that it does not.
    let count = (pair.content + 1).min(256).min(size - pair.address);
    let mut read = |byte| {
        let text = over(module, pair, byte, count);
        buffers.read(&text).map_err(|refusal| format!("a pair alone: {refusal:?}"))
    };
    let (one, other) = (read(0x55)?, read(0xAA)?);
    let from = start + pair.address;
    let outside = |i: &usize| *i < from || from + count <= *i;
    let touched =
        (0..one.values.len()).filter(outside).any(|i| one.values[i] != 0 || one.masks[i] != 0);
    if touched {
        return Err("a pair wrote elsewhere".to_string());
    }
    Ok((from..from + count).filter(|i| one.values[*i] == other.values[*i]).collect())
}
