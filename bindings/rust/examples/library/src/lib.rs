//! An SDCC library, walked by the crate `ar` and read whole, member by member: what the old tool's
//! `Aslink3Objects` did, but that a member which is not whole is told and the others go on.
use gatecobalt::{Reader, Segment};
use std::collections::BTreeMap;
use std::io::{Cursor, Read, Result};

/// What a library gave.
#[derive(Debug, Default)]
pub struct Library {
    /// How many members are whole.
    pub modules: usize,
    /// Their segments; a segment's id is its place here.
    pub segments: Vec<Segment>,
    /// What is not whole: a member's name, or none for the library itself, and why.
    pub faults: Vec<(Option<String>, String)>,
}

impl Library {
    /// Reads a library's bytes.
    pub fn read(bytes: &[u8]) -> Library {
        let mut library = Library::default();
        if let Err(error) = library.walk(bytes) {
            library.faults.push((None, error.to_string()));
        }
        library
    }

    /// Reads every member, and holds the symbols that they define against the library's own table: a
    /// library that was cut behind a member lacks some.
    fn walk(&mut self, bytes: &[u8]) -> Result<()> {
        let mut archive = ar::Archive::new(Cursor::new(bytes));
        let mut missing = BTreeMap::new();
        archive.symbols()?.for_each(|name| *missing.entry(name.to_vec()).or_insert(0) += 1);
        let mut reader = Reader::new();
        while let Some(entry) = archive.next_entry() {
            let mut entry = entry?;
            let name = entry.header().identifier().escape_ascii().to_string();
            let mut text = Vec::new();
            // The crate `ar` ends a member without an error where the library ends.
            if entry.read_to_end(&mut text)? as u64 != entry.header().size() {
                self.faults.push((Some(name), "cut by the library's end".into()));
                continue;
            }
            match reader.whole(&text) {
                Ok(module) => {
                    self.modules += 1;
                    self.segments.extend(module.segments(self.segments.len()));
                    for symbol in module.symbols().filter(|symbol| !symbol.outside) {
                        missing.entry(symbol.name.into()).and_modify(|count| *count -= 1);
                    }
                }
                Err(fault) => self.faults.push((Some(name), fault.to_string())),
            }
        }
        let missing: i64 = missing.into_values().filter(|count| *count > 0).sum();
        if missing > 0 {
            let fault = format!("{missing} symbols of its table are in no whole member");
            self.faults.push((None, fault));
        } else if self.modules + self.faults.len() == 0 {
            self.faults.push((None, "no member".into()));
        }
        Ok(())
    }
}
