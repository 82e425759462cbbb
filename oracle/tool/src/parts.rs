//! The Rust's answers of single parts, as statements over the definition: classes, mode steps,
//! targets, and readers of numbers, bytes and modes.
use crate::antt::{row, text, truth, Statement};
use crate::cases::{address, target_call, targets_statement};
use oracle::generate::Random;
use oracle::{class, mode_step, on_site_size, readers, target, Class, Format, Radix};

/// A class's number in the definition's table.
fn class_number(class: Class) -> u64 {
    match class {
        Class::Addr19 => 0,
        Class::Addr11 => 1,
        Class::Addr24 => 2,
        Class::Addr16 => 3,
        Class::Byte => 4,
        Class::Other => 5,
    }
}

/// A hex format of this order.
fn format(big: bool) -> Format {
    Format { radix: Radix::Hex, big, length: 3 }
}

/// How many entries a mode touches: the shortest part on which the Rust's step does not panic.
fn touched(mode: u16) -> u64 {
    let passes = |length: &u64| {
        mode_step(format(true), mode, &mut vec![(0, 0xFF, true); *length as usize]).is_some()
    };
    (0..=5).find(passes).expect("no mode touches more than five")
}

/// Class, touched entries and size on site of all 2,048 modes.
fn modes() -> Statement {
    let modes: Vec<u64> = (0..2_048).collect();
    let each = |of: fn(u16) -> u64| modes.iter().map(|mode| of(*mode as u16)).collect::<Vec<_>>();
    let list = row(&modes);
    Statement {
        name: "modes".into(),
        computed: format!(
            "(map class_number_of {list} ∷ map touched {list} ∷ map on_site {list} ∷ [])"
        ),
        answered: vec![
            each(|mode| class_number(class(mode).expect("a mode"))),
            each(touched),
            each(|mode| on_site_size(mode).expect("a mode") as u64),
        ],
    }
}

/// An entry of a work line: value, mask, kept or not.
type Entry = (u8, u8, bool);

/// The columns of entries.
const COLUMNS: [fn(&Entry) -> u64; 3] =
    [|entry| entry.0.into(), |entry| entry.1.into(), |entry| entry.2.into()];

/// A mode step on random entries.
fn step(random: &mut Random, name: String) -> Statement {
    let (mode, big) = (random.below(2_048) as u16, random.chance(50));
    let length = touched(mode) as usize + random.below(3);
    let entry = |_| (random.draw() as u8, random.draw() as u8, random.chance(50));
    let before: Vec<Entry> = (0..length).map(entry).collect();
    let mut after = before.clone();
    let number = mode_step(format(big), mode, &mut after).expect("room enough");
    let [values, masks, keeps] = COLUMNS.map(|of| row(&before.iter().map(of).collect::<Vec<_>>()));
    let mut answered = vec![vec![number as u64]];
    answered.extend(COLUMNS.map(|of| after.iter().map(of).collect()));
    let computed = format!(
        "((step_number {} {mode} {values} ∷ []) ∷ step_values {mode} {values} ∷ step_masks {mode} {masks} ∷ step_keeps_of {mode} {keeps} ∷ [])",
        truth(big)
    );
    Statement { name, computed, answered }
}

/// A random target, or now and then one that is refused with 14.
fn any_target(random: &mut Random) -> (String, Vec<u64>) {
    let (mut mode, big) = (random.below(2_048) as u16, random.chance(50));
    let bits = random.pick(&[3, 8, 8, 16, 16, 24, 24]);
    let mut number = (random.draw() >> (64 - bits)) as usize;
    let mut bytes = random.draw().to_le_bytes()[..3].to_vec();
    let address = address(random);
    match random.below(20) {
        0 => mode += 2_048,
        1 => number += 1 << 24,
        2 => bytes.truncate(on_site_size(mode).expect("a mode") - 1),
        _ => (),
    }
    let long = on_site_size(mode).is_some_and(|size| size <= bytes.len());
    let answer = if long && number < 1 << 24 {
        vec![1, target(mode, big, number, &bytes, address).expect("bytes enough") as u64]
    } else {
        vec![0, 14, 0]
    };
    (target_call(big, mode, number, &bytes, address), answer)
}

/// Words at the edges of numbers, bytes and modes.
const WORDS: [&str; 26] = [
    "0",
    "FF",
    "ff ",
    "100",
    "255",
    "256",
    "377",
    "400",
    "EF",
    "F0",
    "F0 13",
    "F7 FF",
    "F8 00",
    "240 19",
    "239",
    "247\t255 1",
    "360 23",
    "FFFFFFFF",
    "100000000",
    "4294967295",
    "4294967296",
    "37777777777",
    "40000000000",
    "000000000000000012x",
    "",
    "G",
];

/// A number, a byte and a mode read from each word in each radix.
fn words(radix: Radix, base: u32) -> Statement {
    let format = Format { radix, big: false, length: 2 };
    let (mut calls, mut answered) = (Vec::new(), Vec::new());
    for word in WORDS {
        let number = readers::parse_number(format, word).map(|(value, used)| (value.into(), used));
        let byte = readers::parse_byte(format, word).map(|(value, used)| (value.into(), used));
        let mode = readers::parse_extended_mode(format, word);
        let mode = mode.map(|(value, used)| (value.into(), used));
        for (reader, answer) in [("number", number), ("byte", byte), ("mode_of", mode)] {
            calls.push(format!("taken ({reader} {base} {} 0)", text(word.as_bytes())));
            answered.push(answer.map_or(vec![0], |(value, used)| vec![1, value, used as u64]));
        }
    }
    let computed = format!("({} ∷ [])", calls.join(" ∷ "));
    Statement { name: format!("words{base}"), computed, answered }
}

/// All statements about parts: so many mode steps, and as many statements of eight targets.
pub fn statements(random: &mut Random, count: usize) -> Vec<Statement> {
    let mut statements = vec![modes()];
    for (radix, base) in [(Radix::Hex, 16), (Radix::Decimal, 10), (Radix::Octal, 8)] {
        statements.push(words(radix, base));
    }
    for number in 0..count {
        statements.push(step(random, format!("step{number}")));
        let targets = (0..8).map(|_| any_target(random)).collect();
        statements.push(targets_statement(format!("targets{number}"), targets));
    }
    statements
}
