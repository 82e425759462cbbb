//! The Rust's answers to some hundreds of texts, written as two crates of statements over the
//! project's definition: one whose statements have to hold, one whose statements have to fail.
use crate::antt::{file, Statement};
use crate::coverage::Coverage;
use crate::{cases, generator, parts, real_modules, Failure};
use oracle::generate::{Kind, Random, KINDS};
use std::fs::{create_dir_all, write};
use std::path::Path;

/// Statements a file.
const PER_FILE: usize = 12;
/// Real modules longer than this are not taken.
const REAL: usize = 5_000;
/// Statements longer than this are not changed to see them fail.
const WRONG: usize = 5_000;
/// Kinds of long texts, which are taken once in so many rounds.
const LONG: [Kind; 3] = [Kind::ManySymbols, Kind::ManyFixups, Kind::LongText];
/// Once in how many rounds.
const ROUNDS: usize = 8;

/// A crate's files: nothing to run, the helpers, and the statements.
fn write_crate(folder: &Path, name: &str, statements: &[Statement]) -> Result<(), Failure> {
    let (src, specs) = (folder.join(name).join("src"), folder.join(name).join("specs"));
    create_dir_all(&src)?;
    create_dir_all(&specs)?;
    write(src.join("lib.rt"), "// Nothing to run: the statements stand in specs/.\n")?;
    write(specs.join("Given.antt"), include_str!("given.txt"))?;
    let mut modules = String::from("pub mod Given\n");
    for (number, part) in statements.chunks(PER_FILE).enumerate() {
        modules += &format!("pub mod Trial{number}\n");
        write(specs.join(format!("Trial{number}.antt")), file(name, part))?;
    }
    Ok(write(specs.join("Lib.antt"), modules)?)
}

/// The named texts: real ones, then each kind in turn.
fn texts(random: &mut Random, seed: &str, count: usize) -> Result<Vec<(String, Vec<u8>)>, Failure> {
    let generator = generator(seed)?;
    let real = real_modules()?.into_iter().map(|(_, text)| text);
    let short: Vec<_> = real.filter(|text| text.len() <= REAL).collect();
    let mut texts = Vec::new();
    for number in 0..count / 8 {
        texts.push((format!("real{number}"), short[random.below(short.len())].clone()));
    }
    for number in 0.. {
        let (round, (kind, _)) = (number / KINDS.len(), KINDS[number % KINDS.len()]);
        if texts.len() >= count {
            break;
        }
        if !LONG.contains(&kind) || round % ROUNDS == 0 {
            texts.push((format!("text{number}{kind:?}"), generator.text(random, kind)));
        }
    }
    Ok(texts)
}

/// A copy of a statement with the last number of one row changed.
fn wrong(statement: &Statement, number: usize) -> Option<Statement> {
    let mut answered = statement.answered.clone();
    let filled: Vec<_> = (0..answered.len()).filter(|at| !answered[*at].is_empty()).collect();
    let at = *filled.get(number % filled.len().max(1))?;
    *answered[at].last_mut()? ^= 1;
    let (name, computed) = (format!("wrong{number}"), statement.computed.clone());
    Some(Statement { name, computed, answered })
}

/// Writes the texts, the crate `trial` and the crate `wrong` into a folder.
pub fn statements(seed: &str, count: &str, folder: &str) -> Result<(), Failure> {
    let (folder, count) = (Path::new(folder), count.parse::<usize>()?);
    let mut random = Random::new(seed.parse()?, 0);
    let mut statements = parts::statements(&mut random, count / 8);
    let mut coverage = Coverage::default();
    create_dir_all(folder.join("texts"))?;
    for (name, text) in texts(&mut random, seed, count)? {
        write(folder.join("texts").join(&name), &text)?;
        coverage.take(&text);
        statements.extend(cases::of_text(&mut random, &name, &text));
    }
    let short = || statements.iter().filter(|statement| statement.computed.len() < WRONG);
    let every = short().count().div_ceil(40);
    let some = short().step_by(every).enumerate();
    let wrong: Vec<_> = some.filter_map(|(number, statement)| wrong(statement, number)).collect();
    write_crate(folder, "trial", &statements)?;
    write_crate(folder, "wrong", &wrong)?;
    coverage.print();
    println!("statements: {}, changed copies of some: {}", statements.len(), wrong.len());
    Ok(())
}
