//! Code placed at chosen addresses.
use gatecobalt::{corrected_target, mismatch, place, place_into, Reader, Refusal, Refused};

/// CSEG of 6 bytes, `_put` outside.
const E1: &[u8] = b"XH3\nH 1 areas 2 global symbols\nM demo\nS _put Ref0000\nA CSEG size 6 flags 20 addr 0\nS _go Def0000\n\
    T 00 00 00 12 00 00 02 00 03\nR 00 00 00 00 02 04 00 00 00 07 00 00\n";

#[test]
fn placed_code_matches_its_pattern() {
    let code = place(E1, &[0x4000], &[0x1234, 0]).expect("a module within the conditions");
    assert_eq!(code, [0x12, 0x12, 0x34, 0x02, 0x40, 0x03]);
    let mut reader = Reader::new();
    let module = reader.whole(E1).expect("a whole module");
    let area = module.kept().next().expect("a kept area");
    assert_eq!(mismatch(area.values, area.masks, &code), None);
    let mut other = code.clone();
    other[3] ^= 1;
    assert_eq!(mismatch(area.values, area.masks, &other), Some(3));
    other[3] ^= 1;
    other[1] ^= 1;
    assert_eq!(mismatch(area.values, area.masks, &other), None);
    assert_eq!(corrected_target(0x002, true, 0, 0x4001, &code[1..3]), Ok(0x1234));
    assert_eq!(corrected_target(0x000, true, 3, 0x4004, &code[4..6]), Ok(0x4000));
}

#[test]
fn refusals_change_no_byte() {
    let refused = |refusal, place| Err(Refused { refusal, place });
    let mut out = vec![0xA5; 65536];
    let relative: &[u8] = b"XH2\nA C size 3 flags 20\nT 00 00 11 22\nR 00 00 00 00 04 02 00 00\n";
    let common: &[u8] =
        b"XH2\nA C size 3 flags 20\nT 00 00 11 22\nR 00 00 00 00\nT 00 01 33\nR 00 00 00 00\n";
    for text in [relative, common] {
        assert_eq!(place_into(text, &[0], &[], &mut out), refused(Refusal::NotPlaced, 0));
        assert_eq!(place_into(text, &[], &[], &mut out), refused(Refusal::ShortBuffer, 0));
    }
    assert_eq!(place_into(E1, &[0x4000], &[0], &mut out), refused(Refusal::ShortBuffer, 0));
    assert_eq!(
        place_into(E1, &[0x4000], &[0, 0], &mut out[..65535]),
        refused(Refusal::ShortBuffer, 0)
    );
    let past: &[u8] = b"XH2\nA C size 3 flags 20\nT 00 00 11\nR 00 00 00 00 04 02 00 00\n";
    assert_eq!(place_into(past, &[], &[], &mut out), refused(Refusal::PastLine, 24));
    assert!(out.iter().all(|&byte| byte == 0xA5));
    assert_eq!(place_into(E1, &[0x4000], &[0x1234, 0], &mut out), Ok(6));
    assert_eq!(&out[..7], &[0x12, 0x12, 0x34, 0x02, 0x40, 0x03, 0xA5]);
}
