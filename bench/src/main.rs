//! Speed beside the Rust module that is replaced: the same texts, the same driver, both built for
//! release, ours and the Rust in turn. The lent buffers are made once and are cleared by no one:
//! neither the driver nor a reading does; what a reading clears of its own arrays is part of its
//! time. `bench/bench` runs it.
mod old;
mod readings;
mod targets;
mod texts;
mod turns;

use gatecobalt::Reader;
use readings::pass;
use std::process::ExitCode;
use texts::sets;

/// Runs a sub-command: `speed`; `targets`; or `pass WHICH SET TIMES`, for tools that count.
fn run(words: &[&str]) -> std::io::Result<bool> {
    let sets = sets()?;
    match words {
        ["speed"] => Ok(readings::table(&sets)),
        ["targets"] => Ok(targets::table(&sets[0])),
        ["pass", which, set, times] => {
            let (set, times) = (set.parse().unwrap_or(0), times.parse().unwrap_or(0));
            // In a thread of its own, whose stack can be measured.
            let work = || pass(which, &mut Reader::new(), &sets[set], times);
            let found = std::thread::scope(|scope| scope.spawn(work).join());
            let found = found.map_err(|_| std::io::Error::other("the thread panicked"))?;
            println!("{} {} {} {}", sets[set].bytes(), sets[set].texts.len(), found.0, found.1);
            Ok(true)
        }
        _ => Ok(false),
    }
}

/// Exits with 1 if ours and the Rust found something else, or if there is no such sub-command.
fn main() -> ExitCode {
    let words: Vec<String> = std::env::args().skip(1).collect();
    match run(&words.iter().map(String::as_str).collect::<Vec<_>>()) {
        Ok(true) => ExitCode::SUCCESS,
        Ok(false) => {
            eprintln!("bench: ours and the Rust differ, or there is no such sub-command");
            ExitCode::FAILURE
        }
        Err(error) => {
            eprintln!("bench: {error}");
            ExitCode::FAILURE
        }
    }
}
