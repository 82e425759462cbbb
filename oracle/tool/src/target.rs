//! Targets: mode, order, number, address and bytes in, the target out, all in hex.
use crate::Failure;
use oracle::{class, target};
use std::io::{stdin, stdout, BufRead, BufWriter, Write};

/// A number in hex.
fn hex(word: &str) -> Result<usize, Failure> {
    Ok(usize::from_str_radix(word, 16)?)
}

/// The answer to one case: the target in hex, `panic` where the Rust panics, `no mode` where the
/// mode is 2,048 or more.
fn answer(words: &[&str]) -> Result<String, Failure> {
    let [mode, order, number, address, bytes @ ..] = words else {
        return Err(Failure::Usage);
    };
    let big = match *order {
        "H" => true,
        "L" => false,
        _ => return Err(Failure::Usage),
    };
    let mode = u16::from_str_radix(mode, 16)?;
    let bytes: Result<Vec<u8>, _> = bytes.iter().map(|byte| u8::from_str_radix(byte, 16)).collect();
    if class(mode).is_none() {
        return Ok("no mode".into());
    }
    let target = target(mode, big, hex(number)?, &bytes?, hex(address)?);
    Ok(target.map_or("panic".into(), |target| format!("{target:X}")))
}

/// One case from the command line.
pub fn one(words: &[&str]) -> Result<(), Failure> {
    println!("{}", answer(words)?);
    Ok(())
}

/// A line with a target for each line with a case.
pub fn lines() -> Result<(), Failure> {
    let mut out = BufWriter::new(stdout().lock());
    for line in stdin().lock().lines() {
        let line = line?;
        writeln!(out, "{}", answer(&line.split_whitespace().collect::<Vec<_>>())?)?;
    }
    Ok(out.flush()?)
}
