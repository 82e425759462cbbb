//! Every real module, read by the crate and by the old module.
use beside::same_segment;
use gatecobalt::{Reader, Segment};
use oracle::{generate::folder, Answer, Kept, Tables};
use std::path::Path;

/// The real modules, from the folder that the script names.
fn real_modules() -> Vec<(String, Vec<u8>)> {
    let path = std::env::var("ORACLE_REAL").expect("ORACLE_REAL names the folder of real modules");
    folder(Path::new(&path)).expect("the real modules can be read")
}

/// The old module's tables and kept areas.
fn old(name: &str, text: &[u8]) -> (Tables, Vec<Kept>) {
    match oracle::read(text) {
        Answer::Read(tables, kept) => (tables, kept),
        _ => panic!("{name}: the old module does not read it"),
    }
}

/// Holds segments against the old module's kept areas.
fn compare(name: &str, segments: &[Segment], kept: &[Kept]) {
    assert_eq!(segments.len(), kept.len(), "{name}: segments");
    for (id, (segment, kept)) in segments.iter().zip(kept).enumerate() {
        assert!(same_segment(segment, kept), "{name}: segment {id}");
    }
}

/// The plain reading is the old module's, up to the place where it ends.
#[test]
fn plain_as_the_old_module() {
    let mut reader = Reader::new();
    for (name, text) in real_modules() {
        let (tables, kept) = old(&name, &text);
        let plain = reader.plain(&text).unwrap_or_else(|refused| panic!("{name}: {refused}"));
        assert_eq!(plain.ended_at(), tables.rest, "{name}: end");
        assert_eq!(plain.records().counts().lines, tables.pairs.len(), "{name}: pairs");
        compare(&name, &plain.plain_segments(0), &kept);
    }
}

/// Every real module is whole and gives the same segments.
#[test]
fn whole_as_the_old_module() {
    let mut reader = Reader::new();
    for (name, text) in real_modules() {
        let (_, kept) = old(&name, &text);
        let module = reader.whole(&text).unwrap_or_else(|bad| panic!("{name}: {bad}"));
        compare(&name, &module.segments(0), &kept);
    }
}
