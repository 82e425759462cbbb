//! Holds both targets of every fixup of seeded programs against SDCC's own assembler and linker: the
//! target of the linked bytes has to be the address that the linker's map gives for what the fixup
//! refers to, wherever the block is shared.
mod check;
mod port;
mod program;
mod tools;

use program::{Program, Random};
use std::path::Path;

/// The folder of the programs, the seed, and how many programs there are.
fn main() {
    let words: Vec<String> = std::env::args().skip(1).collect();
    let number = |at: usize, else_: u64| {
        words.get(at).map_or(else_, |word| word.parse().expect("no number"))
    };
    let folder = Path::new(words.first().expect("usage: linked FOLDER [SEED [PROGRAMS]]"));
    let (seed, count) = (number(1, 1), number(2, 200));
    let random = &mut Random::new(seed);
    let mut tally = check::Tally::default();
    for turn in 0..count {
        let program = Program::random(random, turn % 2 == 1);
        let linked = tools::link(folder, &program);
        check::program(&mut tally, &program, &linked);
    }
    println!("seed {seed}, {count} programs, {} modules", tally.modules);
    if !tally.end() {
        std::process::exit(1);
    }
}
