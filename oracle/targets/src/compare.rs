//! The comparisons. Each prints how many inputs it had and how many differed.
use crate::cases::{self, Case, Parts, Random};
use crate::port::{self, Step, Table, Target};
use crate::rule;

/// Counts what was compared, and shows the first differences.
struct Tally {
    name: &'static str,
    count: u64,
    differ: u64,
}

impl Tally {
    /// An empty one.
    fn new(name: &'static str) -> Self {
        Self { name, count: 0, differ: 0 }
    }

    /// One comparison; what is shown of it where it differs.
    fn add(&mut self, same: bool, show: impl FnOnce() -> String) {
        self.count += 1;
        self.differ += u64::from(!same);
        if !same && self.differ <= 5 {
            println!("{} differ: {}", self.name, show());
        }
    }

    /// Prints the sums; whether nothing differed.
    fn end(self) -> bool {
        println!("{}: {} compared, {} differ", self.name, self.count, self.differ);
        self.differ == 0
    }
}

/// All modes, in both orders.
fn modes() -> impl Iterator<Item = (u16, bool)> {
    (0..2048).flat_map(|mode| [(mode, false), (mode, true)])
}

/// Class and size of every u16.
fn classes() -> bool {
    let mut tally = Tally::new("classes and sizes");
    for mode in 0..=u16::MAX {
        let class = oracle::class(mode).map_or(6, |class| class as u8);
        let size = oracle::on_site_size(mode).unwrap_or(0);
        let same = port::class(mode) == class && port::size(mode) == size;
        tally.add(same, || format!("mode {mode:X}"));
    }
    tally.end()
}

/// One mode step against the Rust's; a part that is too short has to be left alone.
fn step(tally: &mut Tally, table: &Table, mode: u16, big: bool, parts: &Parts) {
    let mut now = parts.clone();
    let answer = port::step(table, mode, big, &mut now.values, &mut now.masks, &mut now.kept);
    let expected = match parts.rust(mode, big) {
        Some((number, after)) => (Step { done: 1, number }, after),
        None => (Step { done: 0, number: 0 }, parts.clone()),
    };
    let found = (answer, now);
    tally.add(found == expected, || format!("mode {mode:X} big {big}: {parts:?} {found:?}"));
}

/// Mode steps on parts of 4 to 9 entries, where the Rust never panics, and on shorter ones.
fn steps(random: &mut Random, table: &Table) -> bool {
    let mut long = Tally::new("mode steps on 4 to 9 entries");
    let mut short = Tally::new("mode steps on 0 to 3 entries");
    for (mode, big) in modes() {
        for _ in 0..260 {
            let length = 4 + random.below(6) as usize;
            step(&mut long, table, mode, big, &Parts::random(random, length));
        }
        for length in 0..4 {
            step(&mut short, table, mode, big, &Parts::random(random, length));
        }
    }
    long.end() & short.end()
}

/// What the port answers for a case that is not refused.
fn at(address: u64) -> Target {
    Target { refused: 0, place: 0, address }
}

/// Every mode and order at every edge number, address and bytes and some random ones.
fn edges(random: &mut Random, table: &Table) -> bool {
    let mut tally = Tally::new("targets at edges, table lent");
    for (mode, big) in modes() {
        let (numbers, addresses) = (cases::numbers(random), cases::addresses(random));
        let size = port::size(mode);
        for bytes in cases::bytes(random) {
            for (number, address) in
                numbers.iter().flat_map(|number| addresses.iter().map(move |a| (*number, *a)))
            {
                let case = Case { mode, big, number, address, bytes };
                let length = size + (address as usize & 1);
                let found =
                    port::target_in(table, mode.into(), big, number, address, &bytes[..length]);
                tally.add(found == at(case.rust(length)), || format!("{case:X?} {found:X?}"));
            }
        }
    }
    tally.end()
}

/// Random cases, the class by the mode's bits.
fn alone(random: &mut Random) -> bool {
    let mut tally = Tally::new("random targets, class by bits");
    for (mode, big) in modes() {
        for _ in 0..100 {
            let case = Case::random(random, mode, big);
            let Case { number, address, bytes, .. } = case;
            let found = port::target(mode.into(), big, number, address, &bytes);
            tally.add(found == at(case.rust(4)), || format!("{case:X?} {found:X?}"));
        }
    }
    tally.end()
}

/// Random cases in rows, by one table made for all of them.
fn rows(random: &mut Random) -> bool {
    let mut tally = Tally::new("random targets in rows");
    for (mode, big) in modes() {
        let cases: Vec<_> = (0..250).map(|_| Case::random(random, mode, big)).collect();
        let modes: Vec<u32> = cases.iter().map(|case| case.mode.into()).collect();
        let numbers: Vec<u32> = cases.iter().map(|case| case.number).collect();
        let addresses: Vec<u64> = cases.iter().map(|case| case.address).collect();
        let bytes: Vec<u8> = cases.iter().flat_map(|case| case.bytes).collect();
        let mut out = vec![7; cases.len() + 1];
        let count = port::targets(big, &modes, &numbers, &addresses, &bytes, &mut out);
        assert!(count == cases.len() && out[count] == 7, "another count of rows");
        for (case, found) in cases.iter().zip(out) {
            tally.add(found == case.rust(4), || format!("{case:X?} {found:X}"));
        }
    }
    tally.end()
}

/// Inputs that have to be refused, whatever the Rust does with them.
fn refusals(random: &mut Random, table: &Table) -> bool {
    let mut tally = Tally::new("refused targets");
    let refused = Target { refused: 14, place: 0, address: 0 };
    for (mode, big) in modes() {
        let case = Case::random(random, mode, big);
        let Case { number, address, bytes, .. } = case;
        let over = u32::from(mode) + 2048 * (1 + random.below(1 << 20) as u32);
        let large = number | 1 << (24 + random.below(8));
        let short = &bytes[..random.below(port::size(mode) as u64) as usize];
        let inputs = [
            (over, number, &bytes[..]),
            (mode.into(), large, &bytes[..]),
            (mode.into(), number, short),
        ];
        for (mode, number, bytes) in inputs {
            let alone = port::target(mode, big, number, address, bytes);
            let lent = port::target_in(table, mode, big, number, address, bytes);
            tally.add(alone == refused && lent == refused, || format!("{mode:X} {number:X}"));
        }
    }
    tally.end()
}

/// Corrected targets of random cases against the rule's second writing: 10,240,000 of as many bytes as
/// the size says or more, and some of fewer bytes or with a mode or a number that is refused.
fn corrected(random: &mut Random) -> bool {
    let mut tally = Tally::new("corrected targets, against the second writing");
    let mut refused = Tally::new("refused corrected targets, against the second writing");
    for (mode, big) in modes() {
        for turn in 0..2500 {
            let Case { number, address, bytes, .. } = Case::random(random, mode, big);
            let length = port::size(mode).max(turn % 5);
            same(&mut tally, mode.into(), big, number, address, &bytes[..length]);
        }
        let Case { number, address, bytes, .. } = Case::random(random, mode, big);
        let over = u32::from(mode) + 2048 * (1 + random.below(1 << 20) as u32);
        let large = number | 1 << (24 + random.below(8));
        same(&mut refused, over, big, number, address, &bytes);
        same(&mut refused, mode.into(), big, large, address, &bytes);
        let short = &bytes[..port::size(mode) - 1];
        same(&mut refused, mode.into(), big, number, address, short);
    }
    tally.end() & refused.end()
}

/// One corrected target against the rule's.
fn same(tally: &mut Tally, mode: u32, big: bool, number: u32, address: u64, bytes: &[u8]) {
    let found = port::corrected(mode, big, number, address, bytes);
    let refused = Target { refused: 14, place: 0, address: 0 };
    let expected = rule::corrected(mode, big, number, address, bytes).map_or(refused, at);
    tally.add(found == expected, || {
        format!(
            "{mode:X} {big} {number:X} {address:X} {bytes:X?}: {found:X?} and not {expected:X?}"
        )
    });
}

/// Everything; ends the program with 1 where anything differed.
pub fn all(seed: u64) {
    let random = &mut Random::new(seed);
    let table = port::table();
    let same = classes()
        & steps(random, &table)
        & edges(random, &table)
        & alone(random)
        & rows(random)
        & refusals(random, &table)
        & corrected(random);
    if !same {
        std::process::exit(1);
    }
}
