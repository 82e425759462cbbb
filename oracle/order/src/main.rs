//! Reads the real modules with their pairs of lines in other orders. `oracle/order/order --help`
//! tells how it is called.
mod answer;
mod module;
mod orders;
mod writes;

use answer::{Answer, Buffers};
use module::Module;
use orders::{orders, Numbers};
use std::path::{Path, PathBuf};
use std::process::ExitCode;

/// Two pairs that write the one position of an area: their order matters.
const COMMON: &[u8] = b"XH3\nA C size 1 flags 20\nT 0 0 0 1\nR 0 0 0 0\nT 0 0 0 2\nR 0 0 0 0\n";

/// Modules, orders that differ from the text's own, and those of them that came out equal.
#[derive(Default)]
struct Tally {
    modules: u64,
    orders: u64,
    equal: u64,
}

/// A run over modules.
struct Run {
    shuffles: u64,
    numbers: Numbers,
    buffers: Buffers,
    pairs: u64,
    positions: u64,
    written: u64,
    apart: Tally,
    common: Tally,
}

impl Run {
    /// A run that has read nothing.
    fn new(shuffles: u64, seed: u64) -> Run {
        Run {
            shuffles,
            numbers: Numbers::new(seed),
            buffers: Buffers::new(),
            pairs: 0,
            positions: 0,
            written: 0,
            apart: Tally::default(),
            common: Tally::default(),
        }
    }

    /// The ended reading of a text that has to be accepted.
    fn read(&mut self, text: &[u8]) -> Result<Answer, String> {
        self.buffers.read(text).map_err(|refusal| format!("{refusal:?}"))
    }

    /// How many positions more than one pair writes.
    fn common(&mut self, module: &Module, whole: &Answer) -> Result<usize, String> {
        let mut writers = vec![0u32; whole.values.len()];
        for pair in &module.pairs {
            for position in writes::positions(&mut self.buffers, module, whole, pair)? {
                writers[position] += 1;
            }
        }
        self.positions += writers.len() as u64;
        self.written += writers.iter().filter(|count| **count > 0).count() as u64;
        Ok(writers.iter().filter(|count| **count > 1).count())
    }

    /// Reads one module in all its orders: how many positions are common to pairs, and how many
    /// orders differ.
    fn module(&mut self, text: &[u8]) -> Result<(usize, u64), String> {
        let module = Module::new(text).ok_or("the text is not of pairs")?;
        let whole = self.read(text)?;
        self.pairs += module.pairs.len() as u64;
        let common = self.common(&module, &whole)?;
        let mut tally = Tally { modules: 1, ..Tally::default() };
        for order in orders(&module, self.shuffles, &mut self.numbers) {
            let other = self.read(&module.text(&order))?;
            if other.fixups != whole.fixups {
                return Err("other fixups".to_string());
            }
            tally.orders += 1;
            tally.equal += u64::from(other == whole);
        }
        let sum = if common > 0 { &mut self.common } else { &mut self.apart };
        sum.modules += tally.modules;
        sum.orders += tally.orders;
        sum.equal += tally.equal;
        Ok((common, tally.orders - tally.equal))
    }

    /// Prints what was counted.
    fn print(&self) {
        println!("pairs {} positions {} written {}", self.pairs, self.positions, self.written);
        for (name, tally) in
            [("no common position", &self.apart), ("common positions", &self.common)]
        {
            println!(
                "{name}: modules {} orders {} equal {}",
                tally.modules, tally.orders, tally.equal
            );
        }
    }
}

/// The files of a folder, by name.
fn files(folder: &Path) -> std::io::Result<Vec<PathBuf>> {
    let entries = std::fs::read_dir(folder)?.map(|entry| Ok(entry?.path()));
    let mut paths = entries.collect::<std::io::Result<Vec<PathBuf>>>()?;
    paths.sort();
    Ok(paths)
}

/// All modules of a folder; whether all is as it has to be.
fn all(folder: &Path, shuffles: u64, seed: u64) -> std::io::Result<bool> {
    // A module whose order matters has to be told: one common position, and one order that differs.
    let mut differences = u64::from(Run::new(0, seed).module(COMMON) != Ok((1, 1)));
    let mut run = Run::new(shuffles, seed);
    for path in files(folder)? {
        match run.module(&std::fs::read(&path)?) {
            Ok((0, 0)) => (),
            Ok((0, differ)) => {
                differences += differ;
                println!("difference: {}: {differ} orders", path.display());
            }
            Ok((common, differ)) => {
                println!("{common} common positions: {}: {differ} orders differ", path.display());
            }
            Err(why) => {
                differences += 1;
                println!("difference: {}: {why}", path.display());
            }
        }
    }
    run.print();
    println!("differences {differences}");
    Ok(differences == 0)
}

/// Exits with 1 if anything differs, with 2 if the words are not of the form.
fn main() -> ExitCode {
    let words: Vec<String> = std::env::args().skip(1).collect();
    let [folder, shuffles, seed] = words.as_slice() else { return ExitCode::from(2) };
    let (Ok(shuffles), Ok(seed)) = (shuffles.parse(), seed.parse()) else {
        return ExitCode::from(2);
    };
    match all(Path::new(folder), shuffles, seed) {
        Ok(true) => ExitCode::SUCCESS,
        Ok(false) => ExitCode::FAILURE,
        Err(error) => {
            eprintln!("order: {error}");
            ExitCode::FAILURE
        }
    }
}
