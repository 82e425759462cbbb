//! Where the compared texts come from.
use crate::answers::{form_of, Reader};
use crate::ported::Form;
use crate::tally::Tally;
use oracle::generate::{Generator, Random};
use oracle::readers;

/// Every radix, order and address length.
pub fn forms() -> Vec<Form> {
    let mut all = Vec::new();
    for radix in [16, 10, 8] {
        for big in [true, false] {
            for width in [2, 3, 4] {
                all.push(Form { radix, big, width });
            }
        }
    }
    all
}

/// Every radix, in one order and length.
fn radices() -> [Form; 3] {
    [16, 10, 8].map(|radix| Form { radix, big: true, width: 3 })
}

/// Every sequence of up to `most` of the pieces.
fn sequences(pieces: &[&str], most: usize) -> Vec<String> {
    let mut all = vec![String::new()];
    let mut last = all.clone();
    for _ in 0..most {
        last = last
            .iter()
            .flat_map(|text| pieces.iter().map(move |piece| format!("{text}{piece}")))
            .collect();
        all.extend(last.iter().cloned());
    }
    all
}

/// All strings of up to four characters of an alphabet of digits of each radix, others and a blank.
pub fn short_numbers(tally: &mut Tally) {
    let alphabet = ["0", "1", "2", "5", "7", "8", "9", "A", "F", "a", "f", "G", "g", " "];
    for text in sequences(&alphabet, 4) {
        for form in radices() {
            tally.compare_places(Reader::Number, form, &text);
            tally.compare_places(Reader::Byte, form, &text);
        }
    }
}

/// A value's digits of a radix, in capitals.
fn digits(mut value: u64, radix: u8) -> String {
    let mut text = Vec::new();
    while text.is_empty() || value > 0 {
        text.push(std::char::from_digit((value % u64::from(radix)) as u32, radix.into()).unwrap());
        value /= u64::from(radix);
    }
    text.iter().rev().collect::<String>().to_uppercase()
}

/// Numbers around the limits, with leading zeros and what may stand behind them.
pub fn long_numbers(tally: &mut Tally) {
    let values = [
        0,
        9,
        255,
        256,
        257,
        65_535,
        65_536,
        (1 << 31) - 1,
        (1 << 32) - 1,
        1 << 32,
        (1 << 32) + 1,
        1 << 33,
        1 << 36,
        1 << 40,
    ];
    for form in radices() {
        for value in values {
            for zeros in (0..40).chain([1_000, 65_000]) {
                for behind in ["", "0", "7", "F", "g", " ", "\r\n1"] {
                    let text =
                        format!("{}{}{behind}", "0".repeat(zeros), digits(value, form.radix));
                    for reader in [Reader::Number, Reader::Byte] {
                        tally.compare(reader, form, &text);
                    }
                }
            }
        }
        for reader in [Reader::Number, Reader::Byte] {
            tally.compare(reader, form, &"9".repeat(60_000));
            tally.compare(reader, form, &"7".repeat(60_000));
        }
    }
}

/// Addresses, indexes and modes: all sequences of up to five pieces.
pub fn byte_lists(tally: &mut Tally) {
    let pieces = ["0", " 1", " FF", "\tF0", " F7", "F8 ", "  100", "255", "G", " "];
    for text in sequences(&pieces, 5) {
        for form in forms() {
            tally.compare(Reader::Address, form, &text);
            if form.width == 2 {
                tally.compare(Reader::Index, form, &text);
                if form.big {
                    tally.compare(Reader::Mode, form, &text);
                }
            }
        }
    }
    for first in 0..=260 {
        for second in 0..=260 {
            for form in radices() {
                let text = format!("{} {}", digits(first, form.radix), digits(second, form.radix));
                tally.compare(Reader::Mode, form, &text);
                for big in [true, false] {
                    tally.compare(Reader::Index, Form { big, ..form }, &text);
                }
            }
        }
    }
}

/// Numbers around the limits of bytes and of 32 bits, separated by blanks; now and then another character.
pub fn some_bytes(random: &mut Random, form: Form) -> String {
    let most = if random.chance(70) { 8 } else { 13 };
    let values = [0, 1, 19, 239, 240, 247, 248, 255, 256, 4_095, (1 << 32) - 1, 1 << 32, 1 << 40];
    let mut text = "0".repeat(random.below(2));
    for _ in 0..random.range(1, 5) {
        text += &digits(random.pick(&values[..most]), form.radix);
        text += random.pick(&[" ", " ", " ", "  ", "\t", "", "G", "8"]);
    }
    text
}

/// The readers that a line's letter calls for.
pub fn readers_of(line: &str) -> &'static [Reader] {
    match line.bytes().next() {
        Some(b'A') => &[Reader::Area, Reader::Entry],
        Some(b'S') => &[Reader::Symbol, Reader::Entry],
        Some(b'O' | b'H' | b'M') => &[Reader::Ignored, Reader::Entry],
        Some(b'T') => &[Reader::Content, Reader::Whole, Reader::IgnoredT],
        Some(b'R') => &[Reader::Relocation],
        Some(b'P') => &[Reader::IgnoredP],
        _ => &[Reader::Header, Reader::Entry],
    }
}

/// The readers of lines, whatever the letter.
const LINE_READERS: [Reader; 9] = [
    Reader::Ignored,
    Reader::IgnoredT,
    Reader::IgnoredP,
    Reader::Area,
    Reader::Symbol,
    Reader::Entry,
    Reader::Content,
    Reader::Whole,
    Reader::Relocation,
];

/// The form that a module's header tells, or X, big, three bytes.
pub fn form_in(text: &str) -> Form {
    readers::format_spec(text)
        .map_or(Form { radix: 16, big: true, width: 3 }, |(format, _)| form_of(format))
}

/// Every line of a module with the text of the next one behind it.
pub fn lines_of(text: &str) -> Vec<&str> {
    let starts: Vec<usize> =
        [0].into_iter().chain(text.match_indices('\n').map(|(at, _)| at + 1)).collect();
    let behind = |i: usize| starts.get(i + 2).copied().unwrap_or(text.len());
    (0..starts.len()).map(|i| &text[starts[i]..behind(i)]).collect()
}

/// The lines of generated modules, each by every line reader.
pub fn generated_lines(tally: &mut Tally, generator: &Generator, modules: u64) {
    for number in 0..modules {
        let (_, text) = generator.module(number);
        let Ok(text) = String::from_utf8(text) else { continue };
        let form = form_in(&text);
        tally.compare(Reader::Header, form, &text);
        for line in lines_of(&text).into_iter().take(60) {
            for reader in LINE_READERS {
                tally.compare(reader, form, line);
            }
        }
    }
}

/// The lines of real modules, each by the readers that its letter calls for.
pub fn real_lines(tally: &mut Tally, modules: &[String]) {
    for text in modules {
        let form = form_in(text);
        tally.compare(Reader::Header, form, text);
        for line in lines_of(text) {
            for reader in readers_of(line) {
                tally.compare(*reader, form, line);
            }
        }
    }
}

/// Every cut of a line and every change of one of its bytes to any other of 128.
pub fn cuts_and_changes(tally: &mut Tally, form: Form, line: &str) {
    for reader in readers_of(line) {
        for cut in 0..=line.len() {
            tally.compare(*reader, form, &line[..cut]);
        }
        let mut bytes = line.as_bytes().to_vec();
        for at in 0..bytes.len() {
            let kept = bytes[at];
            for other in (0..128).filter(|other| *other != kept) {
                bytes[at] = other;
                tally.compare(*reader, form, std::str::from_utf8(&bytes).unwrap());
            }
            bytes[at] = kept;
        }
    }
}
