//! What the counts of the H line are worth: every real module, cut behind every whole line.
use gatecobalt::{Counted, NotWhole, Reader};
use oracle::generate::folder;
use std::path::Path;

/// How many cuts behind a whole line came out how.
#[derive(Debug, Default)]
struct Cuts {
    no_header: usize,
    stopped: usize,
    seen_by_the_counts: usize,
    not_told: usize,
    equal: usize,
}

/// A cut behind a whole line is stopped, or seen by the counts, or lies before the H line, or behind the
/// last A or S line; each real module as it is has equal counts.
#[test]
fn cuts_behind_whole_lines() {
    let path = std::env::var("ORACLE_REAL").expect("ORACLE_REAL names the folder of real modules");
    let (mut reader, mut cuts, mut modules) = (Reader::new(), Cuts::default(), 0);
    for (name, text) in folder(Path::new(&path)).expect("the real modules can be read") {
        let whole = reader.whole(&text).unwrap_or_else(|bad| panic!("{name}: {bad}"));
        assert_eq!(whole.counted(), Counted::Equal, "{name}");
        let counts = whole.counts();
        modules += 1;
        for cut in (1..text.len()).filter(|cut| text[cut - 1] == b'\n') {
            match reader.whole(&text[..cut]) {
                Ok(part) if part.counted() == Counted::NotTold => cuts.not_told += 1,
                Ok(part) => {
                    let (whole, part) = (counts, part.counts());
                    assert_eq!((whole.areas, whole.symbols), (part.areas, part.symbols), "{name}");
                    cuts.equal += 1;
                }
                Err(NotWhole::NotEqual(_)) => cuts.seen_by_the_counts += 1,
                Err(NotWhole::Stopped(_)) => cuts.stopped += 1,
                Err(_) => cuts.no_header += 1,
            }
        }
    }
    println!("{modules} modules: {cuts:?}");
}
