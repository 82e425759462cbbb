//! What the proved reader answers, with all rows.
use gatecobalt::{read_into, rooms, widths, Counts, Lent, Refusal, Verdict};

/// The buffers that a reading is lent.
pub struct Buffers {
    areas: Vec<u32>,
    symbols: Vec<u32>,
    values: Vec<u8>,
    masks: Vec<u8>,
    fixups: Vec<u32>,
}

/// An accepted text: its answer and its rows.
#[derive(PartialEq)]
pub struct Answer {
    pub counts: Counts,
    pub verdict: Verdict,
    pub areas: Vec<u32>,
    pub symbols: Vec<u32>,
    pub values: Vec<u8>,
    pub masks: Vec<u8>,
    /// Area by area; within an area sorted, so that equal answers have the same fixups in any order.
    pub fixups: Vec<Vec<u32>>,
}

impl Buffers {
    /// Buffers of the full room.
    pub fn new() -> Buffers {
        let rooms = rooms();
        Buffers {
            areas: vec![0; rooms.areas],
            symbols: vec![0; rooms.symbols],
            values: vec![0; rooms.values],
            masks: vec![0; rooms.masks],
            fixups: vec![0; rooms.fixups],
        }
    }

    /// The ended reading of a text.
    pub fn read(&mut self, text: &[u8]) -> Result<Answer, Refusal> {
        let lent = Lent {
            areas: &mut self.areas,
            symbols: &mut self.symbols,
            values: &mut self.values,
            masks: &mut self.masks,
            fixups: &mut self.fixups,
        };
        let (counts, verdict) = read_into(true, text, lent)?;
        let widths = widths();
        let rows = self.fixups[..counts.fixups * widths.fixup].chunks(widths.fixup);
        let mut fixups: Vec<Vec<u32>> = rows.map(<[u32]>::to_vec).collect();
        assert!(fixups.windows(2).all(|two| two[0][0] <= two[1][0]), "rows stand area by area");
        fixups.sort();
        Ok(Answer {
            counts,
            verdict,
            areas: self.areas[..counts.areas * widths.area].to_vec(),
            symbols: self.symbols[..counts.symbols * widths.symbol].to_vec(),
            values: self.values[..counts.positions].to_vec(),
            masks: self.masks[..counts.positions].to_vec(),
            fixups,
        })
    }
}

/// Where the image of each area begins, and its size: 0 for an area that is not kept.
pub fn images(answer: &Answer) -> Vec<(usize, usize)> {
    let mut start = 0;
    let width = widths().area;
    let rows = answer.areas.chunks(width);
    rows.map(|row| {
        let size = if row[3] & 0x20 != 0 { row[2] as usize } else { 0 };
        start += size;
        (start - size, size)
    })
    .collect()
}
