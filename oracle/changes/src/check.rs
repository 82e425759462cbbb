//! One pair of texts: the library's answer held against the second writing of the rule.
use crate::read::Buffers;
use crate::rule::{expected, turned, Expected, Row};
use gatecobalt::{changes_into, NotCompared, Side};

/// Numbers behind the rows that no comparison may touch.
const GUARD: usize = 24;

/// What was counted.
#[derive(Default)]
pub struct Counts {
    pub pairs: u64,
    pub equal: u64,
    pub kinds: [u64; 10],
    pub refused: [u64; 2],
    pub unfinished: u64,
    pub short: u64,
    pub turned: u64,
    pub differences: u64,
}

impl Counts {
    /// The sum.
    pub fn add(&mut self, other: &Counts) {
        self.pairs += other.pairs;
        self.equal += other.equal;
        (0..10).for_each(|kind| self.kinds[kind] += other.kinds[kind]);
        (0..2).for_each(|side| self.refused[side] += other.refused[side]);
        self.unfinished += other.unfinished;
        self.short += other.short;
        self.turned += other.turned;
        self.differences += other.differences;
    }

    /// Prints what a part counted.
    pub fn print(&self, part: &str, seconds: f64) {
        println!(
            "{part}: pairs {} without a change {} older refused {} newer refused {} not finished {} lists too short {} turned round {} differences {} ({seconds:.0} s)",
            self.pairs, self.equal, self.refused[0], self.refused[1], self.unfinished, self.short, self.turned, self.differences
        );
        println!("{part}: rows by kind {:?}", self.kinds);
    }
}

/// The number that stands in a list before a comparison.
fn pattern(at: usize) -> u32 {
    0xA5A5_0000 ^ (at as u32).wrapping_mul(0x9E37_79B1)
}

/// The library's answer into a list of so many numbers: the rows, or the refusal; and whether all else is as it was.
fn answer(older: &[u8], newer: &[u8], room: usize) -> Result<Expected, &'static str> {
    let mut list: Vec<u32> = (0..room + GUARD).map(pattern).collect();
    let answer = changes_into(older, newer, &mut list[..room]);
    let used = answer.as_ref().map_or(0, |rows| rows * 8);
    if used > room || (used..room + GUARD).any(|at| list[at] != pattern(at)) {
        return Err("a number behind the rows, or on a refusal, was touched");
    }
    match answer {
        Ok(_) => Ok(Expected::Rows(list[..used].chunks(8).map(|row| row.try_into().unwrap()).collect())),
        Err(NotCompared::Refused { side, refused }) => {
            Ok(Expected::Refused(u32::from(side == Side::Newer), refused.refusal.number(), refused.place))
        }
        Err(NotCompared::NotFinished) => Ok(Expected::NotFinished),
        Err(_) => Err("no room"),
    }
}

/// Holds a pair to the rule; sometimes also a list that is one number too short, and the texts turned round.
pub fn check(older: &[u8], newer: &[u8], buffers: &mut Buffers, counts: &mut Counts, more: bool) -> Result<(), &'static str> {
    counts.pairs += 1;
    let right = expected(&buffers.read(older), &buffers.read(newer));
    let rows: &[Row] = if let Expected::Rows(rows) = &right { rows } else { &[] };
    if answer(older, newer, rows.len() * 8)? != right {
        return Err("another answer");
    }
    match &right {
        Expected::Refused(side, ..) => counts.refused[*side as usize] += 1,
        Expected::NotFinished => counts.unfinished += 1,
        Expected::Rows(rows) => {
            counts.equal += u64::from(rows.is_empty());
            rows.iter().for_each(|row| counts.kinds[row[0] as usize] += 1);
        }
    }
    if !more || rows.is_empty() {
        return Ok(());
    }
    counts.short += 1;
    if answer(older, newer, rows.len() * 8 - 1) != Err("no room") {
        return Err("16 is not told, or the list has changed");
    }
    counts.turned += 1;
    let Expected::Rows(mut back) = answer(newer, older, rows.len() * 8 + 5)? else {
        return Err("turned round it is refused");
    };
    let mut there: Vec<Row> = rows.iter().map(turned).collect();
    there.sort_unstable();
    back.sort_unstable();
    if there == back { Ok(()) } else { Err("turned round it gives other rows") }
}
