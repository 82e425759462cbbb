//! What a comparison costs: over two releases made from the real modules, and as modules grow.
use crate::change::changed;
use crate::read::Buffers;
use gatecobalt::{changes_into, CHANGE_WIDTH, MOST_CHANGES};
use oracle::generate::Random;

extern "C" {
    /// The processor time of this process, in microseconds.
    fn clock() -> i64;
}

/// Rounds, of which the middle is told, and how often a round is done.
const ROUNDS: usize = 11;
const TIMES: u32 = 4;

/// The middle of some rounds, in nanoseconds of processor time.
fn middle(mut round: impl FnMut()) -> f64 {
    // SAFETY: nothing is passed, and a number comes back.
    let now = || unsafe { clock() };
    let mut times: Vec<f64> = (0..ROUNDS)
        .map(|_| {
            let start = now();
            (0..TIMES).for_each(|_| round());
            (now() - start) as f64 * 1e3 / f64::from(TIMES)
        })
        .collect();
    times.sort_by(f64::total_cmp);
    times[ROUNDS / 2]
}

/// What a comparison of pairs takes, and what reading both texts of each alone takes, in nanoseconds.
fn times(pairs: &[(Vec<u8>, Vec<u8>)]) -> (f64, f64) {
    let (mut list, mut buffers) = (vec![0; MOST_CHANGES * CHANGE_WIDTH], Buffers::new());
    let compared = middle(|| {
        for (old, new) in pairs {
            let _ = std::hint::black_box(changes_into(old, new, &mut list));
        }
    });
    let read = middle(|| {
        for (old, new) in pairs {
            let _ = std::hint::black_box(buffers.counts(old));
            let _ = std::hint::black_box(buffers.counts(new));
        }
    });
    (compared, read)
}

/// A module of so many symbols and fixups, without the first of each if asked; names and numbers begin at one.
fn made(count: usize, first: usize, less: bool) -> Vec<u8> {
    let symbols = count - usize::from(less);
    let mut text = format!("XH3\nH 1 areas {symbols:X} global symbols\nM made\nA CSEG size {:X} flags 20 addr 0\n", 2 * count);
    (first + usize::from(less)..first + count).for_each(|number| text += &format!("S _n{number} Def{number:04X}\n"));
    for (line, start) in (0..count).step_by(32).enumerate() {
        let at = line * 64;
        text += &format!("T 00 {:02X} {:02X}", at / 256, at % 256);
        let here = start..(start + 32).min(count);
        here.clone().for_each(|number| text += &format!(" {:02X} {:02X}", (number + first) / 256 % 256, (number + first) % 256));
        text += "\nR 00 00 00 00";
        here.enumerate().filter(|(_, number)| !less || *number > 0).for_each(|(entry, _)| text += &format!(" 00 {:02X} 00 00", 3 + 2 * entry));
        text += "\n";
    }
    text.into_bytes()
}

/// Prints both tables.
pub fn bench(real: &[Vec<u8>]) -> bool {
    let mut random = Random::new(1, 1);
    let copies: Vec<(Vec<u8>, Vec<u8>)> = real.iter().map(|text| (text.clone(), changed(text, &mut random))).collect();
    let (compared, read) = times(&copies);
    println!(
        "{} real modules against changed copies: {:.1} ms, of which reading both texts takes {:.1} ms",
        real.len(), compared / 1e6, read / 1e6
    );
    println!("made modules, microseconds a comparison less the readings:");
    println!("symbols and fixups each   equal   one more in front   none in common");
    for count in [64, 128, 256, 512, 1024] {
        let same = (made(count, 0, false), made(count, 0, false));
        let front = (made(count, 0, true), made(count, 0, false));
        let other = (made(count, 0, false), made(count, count, false));
        let less: Vec<f64> = [same, front, other].map(|pair| {
            let (compared, read) = times(&[pair]);
            (compared - read) / 1e3
        }).to_vec();
        println!("{count:23} {:7.1} {:19.1} {:16.1}", less[0], less[1], less[2]);
    }
    true
}
