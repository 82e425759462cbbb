//! One position followed to its line, beside the image.
use gatecobalt::{explain, NotWhole, Reader, Refusal, Refused};

/// A small module with two fixups.
const DEMO: &[u8] = include_bytes!("../../c/demo.rel");

/// 11 22 at 0, then 33 at 1, in an area of three positions: the T lines stand at 24 and 52.
const TWICE: &[u8] =
    b"XH2\nA C size 3 flags 20\nT 00 00 11 22\nR 00 00 00 00\nT 00 01 33\nR 00 00 00 00\n";

/// Place, value and mask of each position of the first kept area, or none.
fn followed(text: &[u8]) -> Vec<Option<(usize, u8, u8)>> {
    let mut reader = Reader::new();
    let module = reader.whole(text).expect("a whole module");
    let size = module.kept().next().expect("a kept area").values.len();
    let told = |position| module.explain(0, position).expect("a position");
    (0..size).map(|at| told(at).map(|line| (line.place, line.value, line.mask))).collect()
}

#[test]
fn the_last_line_tells() {
    assert_eq!(followed(TWICE), [Some((24, 0x11, 0xFF)), Some((52, 0x33, 0xFF)), None]);
}

#[test]
fn every_position_is_the_images() {
    for text in [DEMO, TWICE] {
        let mut reader = Reader::new();
        let module = reader.whole(text).expect("a whole module");
        for kept in module.kept() {
            for (position, image) in kept.values.iter().zip(kept.masks).enumerate() {
                let told = module.explain(kept.id, position).expect("a position");
                assert_eq!(
                    told.map_or((0, 0), |line| (line.value, line.mask)),
                    (*image.0, *image.1)
                );
            }
        }
    }
}

#[test]
fn no_such_position_is_20_behind_the_modules_own() {
    let mut reader = Reader::new();
    let module = reader.whole(TWICE).expect("a whole module");
    for (id, position) in [(0, 3), (1, 0), (0, usize::MAX), (usize::MAX, 0)] {
        assert_eq!(module.explain(id, position), Err(Refusal::NoPosition));
    }
    let refused = |refusal| Err(Refused { refusal, place: 0 });
    assert_eq!(explain(TWICE, 0, u32::MAX), refused(Refusal::NoPosition));
    assert_eq!(explain(b"XH2", 9, 9), refused(Refusal::NoHeader));
}

#[test]
fn a_stopped_text_is_told_up_to_there() {
    let mut reader = Reader::new();
    let Err(NotWhole::Stopped(stopped)) = reader.whole(&TWICE[..TWICE.len() - 1]) else {
        panic!("a cut text is a module");
    };
    let told = stopped.up_to_there().explain(0, 1).expect("a position").expect("a line");
    assert_eq!((told.place, told.value), (24, 0x22));
}
