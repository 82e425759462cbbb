//! What was compared.
use crate::lent::{Read, Verdict};
use gatecobalt::Counts as Found;

/// Counts of one part of a run.
#[derive(Default)]
pub struct Counts {
    pub texts: u64,
    pub cuts: u64,
    accepted: u64,
    finished: u64,
    refused: [u64; 19],
    positions: u64,
    fixups: u64,
    pub targets: u64,
    pub differences: u64,
}

impl Counts {
    /// Counts an answer.
    pub fn answer(&mut self, read: &Read) {
        match read {
            Ok((_, verdict)) => {
                self.accepted += 1;
                self.finished += u64::from(*verdict == Verdict::Finished);
            }
            Err(refused) => self.refused[refused.refusal.number() as usize] += 1,
        }
    }

    /// Counts what was compared of an accepted text.
    pub fn compared(&mut self, found: &Found, targets: usize) {
        self.positions += found.positions as u64;
        self.fixups += found.fixups as u64;
        self.targets += targets as u64;
    }

    /// Adds other counts to these.
    pub fn add(&mut self, other: &Counts) {
        self.texts += other.texts;
        self.cuts += other.cuts;
        self.accepted += other.accepted;
        self.finished += other.finished;
        self.positions += other.positions;
        self.fixups += other.fixups;
        self.targets += other.targets;
        self.differences += other.differences;
        self.refused.iter_mut().zip(other.refused).for_each(|(sum, more)| *sum += more);
    }

    /// Prints the counts of a part.
    pub fn print(&self, name: &str, seconds: f64) {
        let readings = self.accepted + self.refused.iter().sum::<u64>();
        println!(
            "{name}: {} texts, {} cuts, {readings} readings in {seconds:.1} s",
            self.texts, self.cuts
        );
        println!("  accepted {}, of these finished {}", self.accepted, self.finished);
        print!("  refused");
        let refused = self.refused.iter().enumerate().filter(|(_, count)| **count > 0);
        refused.for_each(|(number, count)| print!(" {number}:{count}"));
        println!();
        print!("  compared: {} positions, {} fixups,", self.positions, self.fixups);
        println!(" {} targets; differences {}", self.targets, self.differences);
    }
}
