//! Holds the proved reader against the unchanged Rust, in one process: real modules, their cuts,
//! generated and damaged ones. `oracle/compare --help` tells how it is called.
mod check;
mod counts;
mod cuts;
mod lent;
mod sample;
mod targets;
mod told;
mod work;

use oracle::generate::{folder, Generator};
use std::path::Path;
use std::process::ExitCode;
use work::Run;

/// The real modules, from the folder that the script names.
fn real_modules() -> std::io::Result<Vec<(String, Vec<u8>)>> {
    let path = std::env::var("ORACLE_REAL").map_err(std::io::Error::other)?;
    folder(Path::new(&path))
}

/// Real modules of which all cuts are read, and the longest text of one.
const CUT: usize = 100;
const SMALL: usize = 6_000;

/// The whole comparison: so many generated texts, and all cuts of so many more.
fn compare(seed: u64, count: u64, cuts: u64) -> std::io::Result<bool> {
    let real = real_modules()?;
    let texts: Vec<&[u8]> = real.iter().map(|(_, text)| text.as_slice()).collect();
    // All cuts cost the square of a text's length: a hundred of the smaller ones, evenly spread.
    let small: Vec<&[u8]> = texts.iter().copied().filter(|text| text.len() <= SMALL).collect();
    let some: Vec<&[u8]> = (0..CUT).map(|number| small[number * small.len() / CUT]).collect();
    let generator = Generator::new(seed, real.iter().map(|(_, text)| text.clone()).collect());
    let generated = |number| generator.module(number).1;
    let run = Run::new(seed);
    let mut differences = 0;
    differences += run.part("real", texts.len() as u64, |checker, number, counts| {
        let text = texts[number as usize];
        (text.to_vec(), checker.text(text, counts).and_then(|()| checker.short(text, counts)))
    });
    differences += run.part("generated", count, |checker, number, counts| {
        let text = generated(number);
        let result =
            checker.text(&text, counts).and_then(|()| checker.extras(number, &text, counts));
        (text, result)
    });
    differences += run.part("real-cuts-beside", some.len() as u64, |checker, number, counts| {
        let text = some[number as usize];
        (text.to_vec(), checker.cuts_beside(text, counts))
    });
    differences += run.part("real-cuts", some.len() as u64, |checker, number, counts| {
        let text = some[number as usize];
        (text.to_vec(), checker.cuts(text, counts))
    });
    differences += run.part("generated-cuts", cuts, |checker, number, counts| {
        let text = generated(number);
        let result = checker.cuts(&text, counts);
        (text, result)
    });
    println!("differences: {differences}");
    Ok(differences == 0)
}

/// Runs the sub-command; none if there is none of that form.
fn run(words: &[&str]) -> Option<std::io::Result<bool>> {
    let number = |word: &str| word.parse::<u64>().ok();
    Some(match words {
        ["compare", seed, count, cuts] => compare(number(seed)?, number(count)?, number(cuts)?),
        ["sample", seed, folder] => sample::write(number(seed)?, Path::new(folder)),
        _ => return None,
    })
}

/// Exits with 1 if anything differs, with 2 if the words are no sub-command.
fn main() -> ExitCode {
    let words: Vec<String> = std::env::args().skip(1).collect();
    match run(&words.iter().map(String::as_str).collect::<Vec<_>>()) {
        Some(Ok(true)) => ExitCode::SUCCESS,
        Some(Ok(false)) => ExitCode::FAILURE,
        Some(Err(error)) => {
            eprintln!("compare: {error}");
            ExitCode::FAILURE
        }
        None => ExitCode::from(2),
    }
}
