//! What changed between two texts: each kind of answer, and a list that has just the room or too little.
use gatecobalt::{
    changes, changes_into, Cell, Change, NotCompared, Refusal, Refused, Side, CHANGE_WIDTH,
};

/// Two releases of a module.
const OLDER: &[u8] = include_bytes!("../../c/older.rel");
const NEWER: &[u8] = include_bytes!("../../c/newer.rel");

#[test]
fn a_text_has_not_changed() {
    assert_eq!(changes(OLDER, OLDER), Ok(vec![]));
}

#[test]
fn changes_stand_in_order() {
    let rows = changes(OLDER, NEWER).unwrap();
    let cell = |value, mask| Some(Cell { value, mask });
    assert_eq!(rows.len(), 15);
    assert_eq!(
        rows[0],
        Change::Position { id: 0, position: 0, older: cell(0x12, 0xFF), newer: cell(0x02, 0xFF) }
    );
    assert_eq!(rows[4], Change::Fixup { side: Side::Older, id: 0, index: 0 });
    assert_eq!(
        rows[7],
        Change::Position { id: 1, position: 1, older: cell(0x33, 0xFF), newer: None }
    );
    assert_eq!(
        rows[8],
        Change::Position { id: 2, position: 1, older: None, newer: cell(0x45, 0xFF) }
    );
    assert_eq!(rows[9], Change::Area { side: Side::Older, id: 3 });
    assert_eq!(rows[10], Change::Value { older: 1, newer: 1 });
    assert_eq!(rows[14], Change::Symbol { side: Side::Newer, index: 5 });
    assert_eq!(changes(NEWER, OLDER).unwrap()[9], Change::Area { side: Side::Newer, id: 3 });
}

#[test]
fn what_is_not_compared() {
    let high = Refused { refusal: Refusal::HighByte, place: 6 };
    assert_eq!(
        changes(b"XH3\nM \xFF\n", b""),
        Err(NotCompared::Refused { side: Side::Older, refused: high })
    );
    let none = Refused { refusal: Refusal::NoHeader, place: 0 };
    assert_eq!(changes(OLDER, b""), Err(NotCompared::Refused { side: Side::Newer, refused: none }));
    assert_eq!(changes(OLDER, &NEWER[..NEWER.len() - 1]), Err(NotCompared::NotFinished));
    let mut list = [77; 15 * CHANGE_WIDTH + 3];
    assert_eq!(
        changes_into(OLDER, NEWER, &mut list[..15 * CHANGE_WIDTH - 1]),
        Err(NotCompared::NoRoom)
    );
    assert_eq!(list, [77; 15 * CHANGE_WIDTH + 3]);
    assert_eq!(changes_into(OLDER, NEWER, &mut list), Ok(15));
    assert_eq!(list[15 * CHANGE_WIDTH..], [77; 3]);
}
