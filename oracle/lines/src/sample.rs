//! The recorded sample: one case a line, hex numbers separated by blanks. A case has the reader's number, radix, order, address length,
//! whether the Rust takes the text, the bytes it used, its five values, and the text's bytes.
use crate::answers::{rust, Answer, Reader};
use crate::ported::Form;
use std::collections::BTreeSet;

/// The lines of the sample, none twice.
#[derive(Default)]
pub struct Sample(BTreeSet<String>);

impl Sample {
    /// Records the Rust's answer about a text. A line reader is asked about the first line alone.
    pub fn record(&mut self, reader: Reader, form: Form, text: &str) {
        let line = match reader {
            Reader::Number
            | Reader::Byte
            | Reader::Address
            | Reader::Index
            | Reader::Mode
            | Reader::Header => text,
            _ => text.split(['\r', '\n']).next().unwrap(),
        };
        if line.len() > 64 {
            return;
        }
        let answer = rust::answer(reader, form, line);
        let taken = u64::from(answer.is_some());
        let Answer { used, values } = answer.unwrap_or(Answer { used: 0, values: [0; 5] });
        let numbers =
            [reader as u64, form.radix.into(), form.big.into(), form.width.into(), taken, used];
        let numbers = numbers.into_iter().chain(values).chain(line.bytes().map(u64::from));
        let words: Vec<String> = numbers.map(|number| format!("{number:X}")).collect();
        self.0.insert(words.join(" "));
    }

    /// The sample as one text.
    pub fn text(&self) -> String {
        self.0.iter().map(|line| format!("{line}\n")).collect()
    }

    /// How many cases there are.
    pub fn count(&self) -> usize {
        self.0.len()
    }
}
