//! Modules written back, and rows that cannot be.
use gatecobalt::{pairs, NotWhole, Reader, Refusal, Refused, Rows};

/// A small module with two fixups.
const DEMO: &[u8] = include_bytes!("../../c/demo.rel");

/// Both orders, a symbol before every area, an area without lines, addr, a mode of two bytes, an empty T line.
const TEXTS: [&[u8]; 3] = [
    DEMO,
    b"XL4\nS a Ref0\nA B size 0 flags 8 addr FFFFFFFF\nA C size 3 flags 20\nS b DefAB\nT 04 03 02 01\nR 00 00 01 00\n",
    b"XH2\nA C size 4 flags 20\nS f Ref1\nT 00 00 11 22 33\nR 00 00 00 00 F1 03 02 00 00\n",
];

/// What is written of a module.
fn rewritten(text: &[u8]) -> Result<Vec<u8>, Refusal> {
    let mut reader = Reader::new();
    let module = reader.whole(text).expect("a whole module");
    module.rows(&pairs(text).expect("its records")).write()
}

#[test]
fn what_is_written_reads_back_and_is_written_again() {
    for text in TEXTS {
        let written = rewritten(text).expect("it is given back");
        let (mut one, mut two) = (Reader::new(), Reader::new());
        let (old, new) = (one.whole(text).expect("whole"), two.whole(&written).expect("whole"));
        assert_eq!(old.segments(0), new.segments(0));
        assert!(old.areas().eq(new.areas()) && old.symbols().eq(new.symbols()));
        let (ours, theirs) = (pairs(text).expect("records"), pairs(&written).expect("records"));
        assert_eq!((ours.content, ours.fragments), (theirs.content, theirs.fragments));
        assert_eq!(rewritten(&written), Ok(written));
    }
    assert_eq!(rewritten(TEXTS[1]).as_deref(), Ok(TEXTS[1]));
}

/// Holds rows of a module, changed by a function, to 15; the buffer stays as it was.
fn refused(text: &[u8], change: impl Fn(Rows<'_>) -> Rows<'_>) {
    let (mut reader, read) = (Reader::new(), pairs(text).expect("records"));
    let module = reader.whole(text).expect("a whole module");
    let mut out = vec![0xA5; 65536];
    assert_eq!(change(module.rows(&read)).write_into(&mut out), Err(Refusal::NotGivenBack));
    assert!(out.iter().all(|byte| *byte == 0xA5));
}

#[test]
fn rows_that_would_not_come_back_are_15() {
    refused(DEMO, |rows| Rows { width: 1, ..rows });
    refused(DEMO, |rows| Rows { width: 5, ..rows });
    refused(DEMO, |rows| Rows { text: b"", ..rows });
    refused(DEMO, |rows| Rows { area_count: rows.area_count + 1, ..rows });
    refused(DEMO, |rows| Rows { symbol_count: usize::MAX, ..rows });
    refused(DEMO, |rows| Rows { pair_count: rows.pair_count + 1, ..rows });
    refused(DEMO, |rows| Rows { content: &rows.content[1..], ..rows });
    refused(DEMO, |rows| Rows { fragments: &rows.fragments[1..], ..rows });
    // The symbol behind its second area stands before its first.
    refused(TEXTS[1], |rows| Rows { area_count: 1, ..rows });
}

#[test]
fn too_little_room_is_16_behind_15() {
    let (mut reader, read) = (Reader::new(), pairs(DEMO).expect("records"));
    let module = reader.whole(DEMO).expect("a whole module");
    let rows = module.rows(&read);
    let long = rows.write().expect("given back").len();
    for room in 0..long {
        let mut out = vec![0xA5; room];
        assert_eq!(rows.write_into(&mut out), Err(Refusal::ShortText));
        assert_eq!(Rows { width: 9, ..rows }.write_into(&mut out), Err(Refusal::NotGivenBack));
        assert!(out.iter().all(|byte| *byte == 0xA5));
    }
    let mut out = vec![0xA5; long + 1];
    assert_eq!(rows.write_into(&mut out), Ok(long));
    assert_eq!(out[long], 0xA5);
}

#[test]
fn records_are_refused_as_texts_are() {
    assert_eq!(pairs(b"XH3"), Err(Refused { refusal: Refusal::NoHeader, place: 0 }));
    assert_eq!(pairs(b"XH3\nM \x80\n"), Err(Refused { refusal: Refusal::HighByte, place: 6 }));
    let mut reader = Reader::new();
    let Err(NotWhole::Stopped(stopped)) = reader.whole(&DEMO[..DEMO.len() - 1]) else {
        panic!("a cut text is a module");
    };
    assert_eq!(stopped.up_to_there().counts().lines, 0);
    assert!(pairs(&DEMO[..DEMO.len() - 1]).expect("up to there").pairs.is_empty());
}
