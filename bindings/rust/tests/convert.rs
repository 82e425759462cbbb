//! Modules of old stock written as X.
use gatecobalt::{convert, convert_into, pairs, NotConverted, Reader, Reason, Refusal, Refused};

/// Octal and decimal, both orders, with a fixup each; and X, with lines that a reading ignores.
const MODULES: [(&[u8], &[u8]); 3] = [
    (
        b"QH3\nH 1 areas 1 global symbols\nS _put Ref0\nA CSEG size 6 flags 40 addr 100\nT 000 000 000 022 000 000\nR 000 000 000 000 002 004 000 000\n",
        b"XH3\nS _put Ref0\nA CSEG size 6 flags 20 addr 40\nT 00 00 00 12 00 00\nR 00 00 00 00 02 04 00 00\n",
    ),
    (
        b" DL2\r\nM x\r\nS a Ref0\r\nA C size 10 flags 32 addr 100\r\nT 001 000 016 255\r\nR 0 0 0 0 2 2 0 0\r\n",
        b"XL2\nS a Ref0\nA C size A flags 20 addr 64\nT 01 00 10 FF\nR 00 00 00 00 02 02 00 00\n",
    ),
    (
        b"XH2\nM x\nA C size 0010 flags 0\n",
        b"XH2\nA C size 10 flags 0\n",
    ),
];

#[test]
fn what_is_converted_gives_the_same() {
    for (old, new) in MODULES {
        let converted = convert(old).expect("a whole module");
        assert_eq!(converted, new);
        assert_eq!(convert(&converted).as_deref(), Ok(new));
        let (mut one, mut two) = (Reader::new(), Reader::new());
        let plain = one.plain(old).expect("the plain reading takes every radix");
        let module = two.whole(new).expect("whole");
        assert_eq!(plain.plain_segments(0), module.segments(0));
        assert!(!pairs(new).expect("records").pairs.is_empty() || module.counts().lines == 0);
    }
}

#[test]
fn only_whole_modules_go_over() {
    for (old, _) in MODULES {
        let mut out = vec![0xA5; 65536];
        assert!(matches!(
            convert_into(&old[..old.len() - 3], &mut out),
            Err(NotConverted::Stopped(_))
        ));
        assert!(out.iter().all(|byte| *byte == 0xA5));
    }
    let Err(NotConverted::Stopped(halt)) = convert(b"DH3\nA C size 10 flags 32") else {
        panic!("a line without its end went over");
    };
    assert_eq!((halt.stop, halt.reason, halt.place), (4, Reason::CannotGoOn, 24));
    let refused = |refusal, place| Err(NotConverted::Refused(Refused { refusal, place }));
    assert_eq!(convert(b"QH3"), refused(Refusal::NoHeader, 0));
    assert_eq!(convert(b"QH3\n\x80"), refused(Refusal::HighByte, 4));
    assert_eq!(convert(&[b' '; 65537]), refused(Refusal::LongText, 0));
}

#[test]
fn fifteen_goes_before_sixteen() {
    let mut long = b"QH2\nA C size 0 flags 0\n".to_vec();
    while long.len() < 60000 {
        long.extend_from_slice(b"T 0 0");
        (0..200).for_each(|_| long.extend_from_slice(b" 1"));
        long.extend_from_slice(b"\nR 0 0 0 0\n");
    }
    let mut out = vec![0xA5; 10];
    let refused = |refusal| Err(NotConverted::Refused(Refused { refusal, place: 0 }));
    assert_eq!(convert_into(&long, &mut out), refused(Refusal::NotGivenBack));
    for (old, new) in MODULES {
        for room in 0..new.len() {
            let mut out = vec![0xA5; room];
            assert_eq!(convert_into(old, &mut out), refused(Refusal::ShortText));
            assert!(out.iter().all(|byte| *byte == 0xA5));
        }
        let mut out = vec![0xA5; new.len() + 1];
        assert_eq!(convert_into(old, &mut out), Ok(new.len()));
        assert_eq!((&out[..new.len()], out[new.len()]), (new, 0xA5));
    }
}
