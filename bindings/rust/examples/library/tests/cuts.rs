//! Damaged copies of a real library, which `SDCC_LIBRARY` names.
use gatecobalt::{Reader, Reference, Segment};
use library::Library;

/// The real library's bytes.
fn real() -> Vec<u8> {
    let path = std::env::var("SDCC_LIBRARY").expect("SDCC_LIBRARY names an SDCC library");
    std::fs::read(path).expect("the library can be read")
}

/// A member of a library: where its text begins, and its length.
fn members(bytes: &[u8]) -> Vec<(usize, usize)> {
    let (mut at, mut found) = (8, Vec::new());
    while at + 60 <= bytes.len() {
        let size = std::str::from_utf8(&bytes[at + 48..at + 58]).expect("a size");
        let size: usize = size.trim().parse().expect("a size");
        found.push((at + 60, size));
        at += 60 + size + size % 2;
    }
    found
}

#[test]
fn the_real_one_is_whole() {
    let (bytes, library) = (real(), Library::read(&real()));
    assert!(library.faults.is_empty(), "{:?}", library.faults);
    assert_eq!(library.modules + 1, members(&bytes).len());
}

/// Every cut is told, also one that lies behind a member: its symbols are missing. The byte that only
/// fills up the last member does not count.
#[test]
fn every_cut_is_told() {
    let bytes = real();
    let (start, size) = *members(&bytes).last().expect("a member");
    for cut in 0..start + size {
        let library = Library::read(&bytes[..cut]);
        assert!(!library.faults.is_empty(), "cut at {cut}: {library:?}");
    }
}

/// What is left of a library's segments without those of one member: later ids count down.
fn without(whole: &Library, first: usize, count: usize) -> Vec<Segment> {
    let mut left = whole.segments.clone();
    left.drain(first..first + count);
    for fixup in left.iter_mut().flat_map(|segment| &mut segment.fixups) {
        match &mut fixup.reference {
            Reference::Segment(id, _) if *id >= first + count => *id -= count,
            _ => (),
        }
    }
    left
}

/// A member with one byte changed to one above 127 is refused with its name; all others are read, and
/// ids count on over them.
#[test]
fn one_bad_member_is_told() {
    let (bytes, mut first, mut reader) = (real(), 0, Reader::new());
    let whole = Library::read(&bytes);
    for (start, size) in members(&bytes).into_iter().skip(1) {
        let module = reader.whole(&bytes[start..start + size]).expect("a whole member");
        let mut damaged = bytes.clone();
        damaged[start + size / 2] = 0x80;
        let library = Library::read(&damaged);
        let name = bytes[start - 60..start - 44].split(|byte| *byte == b'/').next();
        let name = name.map(|name| name.escape_ascii().to_string());
        let refused = format!("refused 3 at {}: a byte above 127", size / 2);
        assert_eq!(library.faults[0], (name, refused));
        assert_eq!(library.modules + 1, whole.modules);
        assert_eq!(library.segments, without(&whole, first, module.counts().kept));
        first += module.counts().kept;
    }
    assert_eq!(first, whole.segments.len());
}

/// Ids count on over whole members, and a bad one between them takes none.
#[test]
fn ids_count_on() {
    let demo = include_bytes!("../../../../c/demo.rel");
    let members = [("one.rel", demo.len()), ("cut.rel", demo.len() - 1), ("two.rel", demo.len())];
    let mut builder = ar::Builder::new(Vec::new());
    for (name, length) in members {
        let header = ar::Header::new(name.into(), length as u64);
        builder.append(&header, &demo[..length]).expect("an archive in memory");
    }
    let library = Library::read(&builder.into_inner().expect("an archive in memory"));
    let refers = library.segments.iter().map(|segment| segment.fixups[1].reference.clone());
    let counted = [Reference::Segment(0, 0), Reference::Segment(1, 0)];
    assert_eq!(refers.collect::<Vec<_>>(), counted);
    assert_eq!(library.faults, [(Some("cut.rel".into()), "stopped at 97 reason 4: the line cannot go on like this, at 163".to_string())]);
}
