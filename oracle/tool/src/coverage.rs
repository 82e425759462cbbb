//! What the texts of a run cover, told in a few lines.
use oracle::{class, expected, read, Answer, Expected};
use std::collections::BTreeMap;

/// Counts by name.
#[derive(Default)]
pub struct Coverage {
    answers: BTreeMap<String, usize>,
    formats: BTreeMap<String, usize>,
    classes: BTreeMap<String, usize>,
}

impl Coverage {
    /// Counts one text: its answer by document 01, its format, its fixups' classes.
    pub fn take(&mut self, text: &[u8]) {
        let answer = read(text);
        let name = match expected(text, &answer) {
            Expected::Accepted => "accepted".into(),
            Expected::Refused(number, _) => format!("refused {number:2}"),
            Expected::Untold => "untold".into(),
        };
        *self.answers.entry(name).or_default() += 1;
        if let Some(format) = answer.tables().map(|tables| tables.format) {
            let order = if format.big { 'H' } else { 'L' };
            let name = format!("{:?} {order}{}", format.radix, format.length);
            *self.formats.entry(name).or_default() += 1;
        }
        if let Answer::Read(_, kept) = &answer {
            for fixup in kept.iter().flat_map(|area| &area.fixups) {
                let name = class(fixup.mode).map_or("none".into(), |class| format!("{class:?}"));
                *self.classes.entry(name).or_default() += 1;
            }
        }
    }

    /// Prints the counts.
    pub fn print(&self) {
        let lists =
            [("texts", &self.answers), ("formats", &self.formats), ("fixups", &self.classes)];
        for (name, counts) in lists {
            let counts: Vec<_> =
                counts.iter().map(|(what, count)| format!("{what}: {count}")).collect();
            println!("{name}: {}", counts.join(", "));
        }
    }
}
