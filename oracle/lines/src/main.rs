//! Every reader of text and lines against the Rust's own parser functions: the value and the bytes used where the Rust reads, a halt where it errs.
mod answers;
mod cases;
mod ported;
mod sample;
mod tally;

use answers::Reader;
use oracle::generate::{folder, Generator, Random};
use ported::Form;
use sample::Sample;
use std::collections::{BTreeMap, BTreeSet};
use std::path::Path;
use tally::Tally;

/// The real modules as texts.
fn real_modules(path: &str) -> Vec<String> {
    let files = folder(Path::new(path)).unwrap_or_else(|error| panic!("{path}: {error}"));
    files.into_iter().map(|(_, text)| String::from_utf8(text).unwrap()).collect()
}

/// Real lines of every letter, up to so many of each and none twice: of each module one line a letter.
fn chosen_lines(modules: &[String], most: usize) -> Vec<(Form, String)> {
    let mut found: BTreeMap<u8, BTreeSet<&str>> = BTreeMap::new();
    let mut chosen = Vec::new();
    for step in 0..modules.len() {
        let text = &modules[step * 7 % modules.len()];
        let mut seen = BTreeSet::new();
        for line in text.lines().skip(step % 5).filter(|line| (1..=90).contains(&line.len())) {
            let letter = line.as_bytes()[0];
            let lines = found.entry(letter).or_default();
            if lines.len() < most && !lines.contains(line) && seen.insert(letter) {
                lines.insert(line);
                chosen.push((cases::form_in(text), line.to_string()));
            }
        }
    }
    chosen
}

/// One case of a kind in so many is recorded.
fn recorded(modules: &[String], generator: &Generator) -> Sample {
    let mut sample = Sample::default();
    let mut random = Random::new(3, 0);
    let all = cases::forms();
    for reader in [Reader::Number, Reader::Byte, Reader::Address, Reader::Index, Reader::Mode] {
        for _ in 0..32 {
            let form = random.pick(&all);
            sample.record(reader, form, &cases::some_bytes(&mut random, form));
        }
    }
    for number in 0..90 {
        let (_, text) = generator.module(number);
        let Ok(text) = String::from_utf8(text) else { continue };
        let form = cases::form_in(&text);
        sample.record(Reader::Header, form, text.get(..20).unwrap_or(&text));
        let lines = cases::lines_of(&text);
        let page = lines.iter().find(|line| line.starts_with('P'));
        for line in page.into_iter().chain([&random.pick(&lines)]) {
            for reader in cases::readers_of(line) {
                sample.record(*reader, form, line);
            }
        }
    }
    for (form, line) in chosen_lines(modules, 6) {
        let mut changed = line.clone().into_bytes();
        let at = random.below(changed.len());
        changed[at] = random.pick(b" \t0F9gRT:");
        let changed = String::from_utf8(changed).unwrap();
        for text in [&line[..], &line[..random.below(line.len())], &changed] {
            for reader in cases::readers_of(&line) {
                sample.record(*reader, form, text);
            }
        }
    }
    sample
}

/// Runs one kind of cases and adds its counts to the totals.
fn kind(title: &str, totals: &mut (u64, u64), run: impl FnOnce(&mut Tally)) {
    let mut tally = Tally::default();
    run(&mut tally);
    tally.print(title);
    let (cases, differ) = tally.total();
    *totals = (totals.0 + cases, totals.1 + differ);
}

fn main() {
    let words: Vec<String> = std::env::args().skip(1).collect();
    let (Some(path), sample) = (words.first(), words.get(1)) else {
        eprintln!("usage: oracle-lines FOLDER-OF-REAL-MODULES [SAMPLE]");
        std::process::exit(2);
    };
    let modules = real_modules(path);
    let generator =
        Generator::new(1, modules.iter().map(|text| text.clone().into_bytes()).collect());
    if let Some(file) = sample {
        let sample = recorded(&modules, &generator);
        std::fs::write(file, sample.text()).unwrap();
        println!("{} cases recorded", sample.count());
        return;
    }
    let mut totals = (0, 0);
    kind("all strings of up to four characters", &mut totals, cases::short_numbers);
    kind("numbers around the limits", &mut totals, cases::long_numbers);
    kind("addresses, indexes and modes", &mut totals, cases::byte_lists);
    kind("lines of 4,000 generated modules", &mut totals, |tally| {
        cases::generated_lines(tally, &generator, 4_000)
    });
    kind("lines of all real modules", &mut totals, |tally| cases::real_lines(tally, &modules));
    let chosen = chosen_lines(&modules, 100);
    let letters: BTreeSet<char> =
        chosen.iter().filter_map(|(_, line)| line.chars().next()).collect();
    let title = format!(
        "every cut and every single-byte change of {} real lines, of {letters:?}",
        chosen.len()
    );
    kind(&title, &mut totals, |tally| {
        chosen.iter().for_each(|(form, line)| cases::cuts_and_changes(tally, *form, line))
    });
    println!("{} comparisons, {} differ", totals.0, totals.1);
    std::process::exit(i32::from(totals.1 > 0));
}
