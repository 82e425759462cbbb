//! What is whole and what is not: every cut of a module, refusals, and the plain reading beside them.
use gatecobalt::{
    rooms, Counted, Fault, Lent, NotWhole, Reader, Reason, Reference, Refers, Refusal, Refused,
};

/// A small module with two fixups.
const DEMO: &[u8] = include_bytes!("../../c/demo.rel");

/// The places behind the demo's header and records; its last two lines are one record.
fn record_ends() -> Vec<usize> {
    let mut ends: Vec<usize> = (1..=DEMO.len()).filter(|at| DEMO[at - 1] == b'\n').collect();
    ends.remove(ends.len() - 2);
    ends
}

/// The places behind the demo's H line, and behind its last S line.
const H_LINE: usize = 31;
const LAST_SYMBOL: usize = 97;

/// A text that is refused with this, at this place.
fn refused(refusal: Refusal, place: usize) -> Fault {
    Fault::Refused(Refused { refusal, place })
}

/// The fault of a text, or none.
fn fault(text: &[u8]) -> Option<Fault> {
    Reader::new().whole(text).err().map(Fault::from)
}

#[test]
fn every_cut_is_told_but_behind_a_record() {
    let (ends, mut reader) = (record_ends(), Reader::new());
    for cut in 0..=DEMO.len() {
        let read = reader.whole(&DEMO[..cut]);
        match (ends.iter().rfind(|end| **end <= cut), read) {
            (None, Err(NotWhole::Refused(bad))) => {
                assert_eq!(Fault::Refused(bad), refused(Refusal::NoHeader, 0));
            }
            (Some(end), Ok(module)) => {
                assert_eq!((*end, module.header().width), (cut, 3));
                // Before the H line was read nothing is told; behind the last S line the counts are equal.
                assert_eq!(
                    module.counted(),
                    if cut < H_LINE { Counted::NotTold } else { Counted::Equal }
                );
                assert!(cut < H_LINE || cut >= LAST_SYMBOL, "cut at {cut}");
            }
            (Some(end), Err(NotWhole::NotEqual(read))) => {
                assert!(*end == cut && (H_LINE..LAST_SYMBOL).contains(&cut), "cut at {cut}");
                assert!(read.as_read().counts().symbols < 2);
            }
            (Some(end), Err(NotWhole::Stopped(stopped))) => {
                assert!(*end < cut && stopped.place() == *end, "cut at {cut}");
                assert!((*end..=cut).contains(&stopped.halt().place), "cut at {cut}");
                assert!([Reason::NoDigit, Reason::CannotGoOn].contains(&stopped.reason()));
            }
            (end, read) => panic!("cut at {cut}, last record's end {end:?}: {read:?}"),
        }
    }
}

#[test]
fn a_stop_keeps_what_was_read() {
    let (ends, mut reader) = (record_ends(), Reader::new());
    let last = ends[ends.len() - 2];
    let Err(NotWhole::Stopped(stopped)) = reader.whole(&DEMO[..DEMO.len() - 1]) else {
        panic!("a cut text is a module");
    };
    let (partial, counts) = (stopped.partial_segments(0), stopped.up_to_there().counts());
    assert_eq!((partial.len(), partial[0].fixups.len(), counts.lines), (1, 0, 0));
    assert_eq!(stopped.place(), last);
    let whole = reader.whole(&DEMO[..last]).expect("the records up to there");
    assert_eq!((whole.segments(0), whole.counts()), (partial, counts));
}

#[test]
fn a_whole_module_is_seen() {
    let mut reader = Reader::new();
    let module = reader.whole(DEMO).expect("a whole module");
    let area = module.areas().next().expect("an area");
    assert_eq!((area.name, area.size, area.addr), ("CSEG", 6, Some(0)));
    assert!(area.is_code() && area.is_kept() && !area.is_absolute() && module.header().big);
    let refers: Vec<Refers> = module.records().fixups().map(|row| row.refers).collect();
    assert_eq!(refers, [Refers::Outside("_put"), Refers::Area(0)]);
}

#[test]
fn ids_are_counted_on() {
    let mut reader = Reader::new();
    let segments = reader.whole(DEMO).expect("a whole module").segments(5);
    assert_eq!(segments[0].fixups[1].reference, Reference::Segment(5, 0));
}

#[test]
fn refusals_have_their_numbers_and_places() {
    let long = [DEMO, &vec![b'\n'; 65_537 - DEMO.len()]].concat();
    assert_eq!(fault(&long), Some(refused(Refusal::LongText, 0)));
    assert_eq!(fault(b"XH3\nM \x80\n"), Some(refused(Refusal::HighByte, 6)));
    assert_eq!(fault(b""), Some(refused(Refusal::NoHeader, 0)));
    for number in 0..40 {
        let refusal = Refusal::from_number(number);
        let known = (1..=16).contains(&number) || number == 18 || (20..=25).contains(&number);
        assert_eq!(refusal.is_some(), known);
        assert_eq!(refusal.map_or(number, Refusal::number), number);
    }
}

#[test]
fn a_fault_says_what_and_where() {
    let said = |text| fault(text).map(|fault| fault.to_string());
    assert_eq!(said(DEMO), None);
    let stopped = "stopped at 4 reason 4: the line cannot go on like this, at 7";
    assert_eq!(said(b"XH3\nM x"), Some(stopped.into()));
    let no_digit = "stopped at 4 reason 1: a number is due, and there is no digit, at 11";
    assert_eq!(said(b"XH3\nS a RefG\n"), Some(no_digit.into()));
    let not_equal = "finished not equal: read 0 areas and 1 symbols, the H line tells others";
    assert_eq!(said(b"XH3\nH 1 areas 1 global symbols\nS a Ref0\n"), Some(not_equal.into()));
    assert_eq!(said(b"XH3"), Some("refused 4 at 0: no header".into()));
    assert_eq!(said(b"QH3\n"), Some("refused 18 at 0: a header of Q or D".into()));
    assert_eq!(said(b"DL2"), Some("refused 4 at 0: no header".into()));
}

#[test]
fn a_short_buffer_is_refused() {
    let rooms = rooms();
    let (mut areas, mut symbols) = (vec![0; rooms.areas], vec![0; rooms.symbols]);
    let (mut values, mut masks) = (vec![0; rooms.values], vec![0; rooms.masks]);
    let mut fixups = vec![0; rooms.fixups - 1];
    let lent = Lent {
        areas: &mut areas,
        symbols: &mut symbols,
        values: &mut values,
        masks: &mut masks,
        fixups: &mut fixups,
    };
    let fault = lent.whole(DEMO).err().map(Fault::from);
    assert_eq!(fault, Some(refused(Refusal::ShortBuffer, 0)));
}

#[test]
fn the_plain_reading_is_no_verdict() {
    let mut reader = Reader::new();
    let whole = reader.plain(DEMO).expect("read").ended_at();
    let cut = reader.plain(&DEMO[..DEMO.len() - 1]).expect("read");
    assert_eq!((whole, cut.ended_at(), cut.left_from()), (DEMO.len() - 1, DEMO.len() - 1, None));
    assert_eq!(cut.plain_segments(0)[0].fixups.len(), 2);
}
