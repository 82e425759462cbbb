//! Nanoseconds of a target and of a mode step, the port's beside the Rust's in one run. The Rust is
//! called as the oracle exposes it, with panics caught, and the port over the C interface.
use crate::cases::{Case, Parts, Random};
use crate::port;
use std::hint::black_box;
use std::time::Instant;

/// How many inputs a round has, and how many rounds there are.
const COUNT: usize = 20_000;
const ROUNDS: usize = 401;

/// The least and the middle time of a round, in nanoseconds an input.
fn rounds(name: &str, mut round: impl FnMut()) {
    let mut times: Vec<f64> = (0..ROUNDS)
        .map(|_| {
            let start = Instant::now();
            round();
            start.elapsed().as_nanos() as f64 / COUNT as f64
        })
        .collect();
    times.sort_by(f64::total_cmp);
    println!("{name}: least {:.1} ns, middle {:.1} ns", times[0], times[ROUNDS / 2]);
}

/// Targets of random cases of all modes.
fn targets(random: &mut Random) {
    let table = port::table();
    let cases: Vec<Case> = (0..COUNT)
        .map(|_| {
            let mode = random.below(2048) as u16;
            Case::random(random, mode, true)
        })
        .collect();
    let modes: Vec<u32> = cases.iter().map(|case| case.mode.into()).collect();
    let numbers: Vec<u32> = cases.iter().map(|case| case.number).collect();
    let addresses: Vec<u64> = cases.iter().map(|case| case.address).collect();
    let bytes: Vec<u8> = cases.iter().flat_map(|case| case.bytes).collect();
    let mut out = vec![0; COUNT];
    rounds("target, Rust", || {
        for case in &cases {
            black_box(case.rust(4));
        }
    });
    rounds("target, port, table lent", || {
        for case in &cases {
            let Case { mode, big, number, address, bytes } = *case;
            black_box(port::target_in(&table, mode.into(), big, number, address, &bytes));
        }
    });
    rounds("corrected target, port", || {
        for case in &cases {
            let Case { mode, big, number, address, bytes } = *case;
            black_box(port::corrected(mode.into(), big, number, address, &bytes));
        }
    });
    rounds("target, port, in rows", || {
        black_box(port::targets(true, &modes, &numbers, &addresses, &bytes, &mut out));
    });
    rounds("target, port, class by bits", || {
        for case in &cases {
            let Case { mode, big, number, address, bytes } = *case;
            black_box(port::target(mode.into(), big, number, address, &bytes));
        }
    });
}

/// Mode steps of random modes on four entries, which both take from the same place.
fn steps(random: &mut Random) {
    let table = port::table();
    let modes: Vec<u16> = (0..COUNT).map(|_| random.below(2048) as u16).collect();
    let parts = Parts::random(random, 4);
    let format = oracle::Format { radix: oracle::Radix::Hex, big: true, length: 3 };
    let entry = |i: usize| (parts.values[i], parts.masks[i], parts.kept[i] == 1);
    let entries = [0, 1, 2, 3].map(entry);
    let three = |part: &Vec<u8>| [part[0], part[1], part[2], part[3]];
    let (values, masks, kept) = (three(&parts.values), three(&parts.masks), three(&parts.kept));
    rounds("mode step, Rust", || {
        for mode in &modes {
            let mut entries = black_box(entries);
            black_box(oracle::mode_step(format, *mode, &mut entries));
            black_box(entries);
        }
    });
    rounds("mode step, port, table lent", || {
        for mode in &modes {
            let (mut values, mut masks, mut kept) = black_box((values, masks, kept));
            black_box(port::step(&table, *mode, true, &mut values, &mut masks, &mut kept));
            black_box((values, masks, kept));
        }
    });
}

/// Targets, then mode steps.
pub fn all(seed: u64) {
    let random = &mut Random::new(seed);
    println!("{COUNT} inputs a round, {ROUNDS} rounds");
    targets(random);
    steps(random);
}
