//! The oracle's sub-commands; the script beside this folder builds and starts it.
mod antt;
mod cases;
mod count;
mod coverage;
mod parts;
mod statements;
mod target;

use oracle::generate::{folder, Generator};
use oracle::{listing, read, read_frame, write_frame};
use std::io::{stdin, stdout, BufReader, BufWriter, Read, Write};
use std::path::Path;
use std::process::ExitCode;

/// Why a sub-command ended early.
pub enum Failure {
    /// The words are not a sub-command's.
    Usage,
    /// A file or stream could not be read or written.
    Io(std::io::Error),
}

impl From<std::io::Error> for Failure {
    /// A file or stream failed.
    fn from(error: std::io::Error) -> Self {
        Failure::Io(error)
    }
}

impl From<std::num::ParseIntError> for Failure {
    /// A word is no number.
    fn from(_: std::num::ParseIntError) -> Self {
        Failure::Usage
    }
}

/// The listing of one module from standard input.
fn list() -> Result<(), Failure> {
    let mut text = Vec::new();
    stdin().read_to_end(&mut text)?;
    stdout().write_all(listing(&text, &read(&text)).as_bytes())?;
    Ok(())
}

/// A frame with a listing for each frame with a module.
fn batch_modules() -> Result<(), Failure> {
    let mut from = BufReader::new(stdin().lock());
    let mut to = BufWriter::new(stdout().lock());
    while let Some(text) = read_frame(&mut from)? {
        write_frame(&mut to, listing(&text, &read(&text)).as_bytes())?;
    }
    Ok(to.flush()?)
}

/// The real modules, from the folder that the script names.
pub fn real_modules() -> Result<Vec<(String, Vec<u8>)>, Failure> {
    let path = std::env::var("ORACLE_REAL").map_err(|_| Failure::Usage)?;
    Ok(folder(Path::new(&path))?)
}

/// A generator with the real modules.
pub fn generator(seed: &str) -> Result<Generator, Failure> {
    let real = real_modules()?.into_iter().map(|(_, text)| text).collect();
    Ok(Generator::new(seed.parse()?, real))
}

/// Generated modules, as frames to standard output or as files of a folder.
fn generate(seed: &str, count: &str, to: &str) -> Result<(), Failure> {
    let generator = generator(seed)?;
    let mut out = BufWriter::new(stdout().lock());
    for number in 0..count.parse()? {
        let (kind, text) = generator.module(number);
        if to == "-" {
            write_frame(&mut out, &text)?;
        } else {
            std::fs::create_dir_all(to)?;
            std::fs::write(Path::new(to).join(format!("{number:08}.{kind:?}.rel")), text)?;
        }
    }
    Ok(out.flush()?)
}

/// Runs the sub-command that the words name.
fn run(words: &[&str]) -> Result<(), Failure> {
    match words {
        ["list"] => list(),
        ["target"] | ["batch", "targets"] => target::lines(),
        ["target", words @ ..] => target::one(words),
        ["batch"] | ["batch", "modules"] => batch_modules(),
        ["generate", seed, count] => generate(seed, count, "-"),
        ["generate", seed, count, to] => generate(seed, count, to),
        ["count", seed, count] => count::count(seed, count),
        ["statements", seed, count, to] => statements::statements(seed, count, to),
        _ => Err(Failure::Usage),
    }
}

/// Runs the sub-command; exits with 2 if there is none of that form.
fn main() -> ExitCode {
    let words: Vec<String> = std::env::args().skip(1).collect();
    match run(&words.iter().map(String::as_str).collect::<Vec<_>>()) {
        Ok(()) => ExitCode::SUCCESS,
        Err(Failure::Usage) => ExitCode::from(2),
        Err(Failure::Io(error)) => {
            eprintln!("oracle: {error}");
            ExitCode::FAILURE
        }
    }
}
