//! What changed between two releases of a module.
use crate::raw;
use crate::refusal::{Refusal, Refused};
use std::{error, fmt};

/// Numbers in a row of a list of changes.
pub const CHANGE_WIDTH: usize = 8;

/// The most changes that two modules can have: 131,072 positions, 2,048 fixups, 64 areas, 2,048 symbols.
pub const MOST_CHANGES: usize = 135_232;

/// One of two texts.
#[derive(Clone, Copy, Debug, PartialEq, Eq, Hash)]
pub enum Side {
    /// The older text.
    Older,
    /// The newer text.
    Newer,
}

/// A position's value and mask.
#[derive(Clone, Copy, Debug, PartialEq, Eq, Hash)]
pub struct Cell {
    /// The value.
    pub value: u8,
    /// The mask: its ones are the known bits.
    pub mask: u8,
}

/// A change, in the order of the rule: area by area, and behind all areas the symbols.
#[derive(Clone, Copy, Debug, PartialEq, Eq, Hash)]
#[non_exhaustive]
pub enum Change {
    /// A position of a pair of areas that differs, or that one side lacks.
    Position {
        /// The areas' id.
        id: usize,
        /// The position in them.
        position: usize,
        /// The older's value and mask.
        older: Option<Cell>,
        /// The newer's.
        newer: Option<Cell>,
    },
    /// A fixup of one side that the other lacks.
    Fixup {
        /// Whose it is.
        side: Side,
        /// Its area's id.
        id: usize,
        /// The index of its row there.
        index: usize,
    },
    /// An area of one side that the other lacks: it stands for all that is in it.
    Area {
        /// Whose it is.
        side: Side,
        /// Its id.
        id: usize,
    },
    /// A symbol of both sides with another value, by the index of its row on each.
    Value {
        /// In the older.
        older: usize,
        /// In the newer.
        newer: usize,
    },
    /// A symbol of one side that the other lacks.
    Symbol {
        /// Whose it is.
        side: Side,
        /// The index of its row there.
        index: usize,
    },
}

impl Change {
    /// The change of a row.
    fn told(row: &[u32]) -> Change {
        let (id, index, other) = (row[1] as usize, row[2] as usize, row[3] as usize);
        let cell = |at: usize| Some(Cell { value: row[at] as u8, mask: row[at + 1] as u8 });
        let position = |older, newer| Change::Position { id, position: index, older, newer };
        match row[0] {
            0 => position(cell(3), cell(5)),
            1 => position(cell(3), None),
            2 => position(None, cell(5)),
            3 => Change::Fixup { side: Side::Older, id, index },
            4 => Change::Fixup { side: Side::Newer, id, index },
            5 => Change::Area { side: Side::Older, id },
            6 => Change::Area { side: Side::Newer, id },
            7 => Change::Value { older: index, newer: other },
            8 => Change::Symbol { side: Side::Older, index },
            9 => Change::Symbol { side: Side::Newer, index: other },
            kind => unreachable!("a library with a kind {kind} of changes"),
        }
    }
}

/// Why two texts were not compared.
#[derive(Clone, Copy, Debug, PartialEq, Eq)]
#[non_exhaustive]
pub enum NotCompared {
    /// One of them is refused.
    Refused {
        /// Which.
        side: Side,
        /// Why, and where.
        refused: Refused,
    },
    /// 19: one of them is not finished.
    NotFinished,
    /// 16: the lent list has too little room.
    NoRoom,
}

impl NotCompared {
    /// What the numbers of a refusal say.
    fn told(numbers: &raw::ChangedNumbers) -> NotCompared {
        let side = match numbers.side {
            1 => Side::Older,
            2 => Side::Newer,
            _ if numbers.refusal == 16 => return NotCompared::NoRoom,
            _ => return NotCompared::NotFinished,
        };
        let refusal = Refusal::from_number(numbers.refusal)
            .expect("a library with the refusals of this crate");
        NotCompared::Refused { side, refused: Refused { refusal, place: numbers.place } }
    }
}

impl fmt::Display for NotCompared {
    /// Which text it is, the number, the place and the meaning.
    fn fmt(&self, out: &mut fmt::Formatter) -> fmt::Result {
        match self {
            NotCompared::Refused { side: Side::Older, refused } => write!(out, "older: {refused}"),
            NotCompared::Refused { side: Side::Newer, refused } => write!(out, "newer: {refused}"),
            NotCompared::NotFinished => write!(out, "refused 19 at 0: a text is not finished"),
            NotCompared::NoRoom => write!(out, "refused 16 at 0: the list has too little room"),
        }
    }
}

impl error::Error for NotCompared {}

/// Lists what changed between two texts as rows of [`CHANGE_WIDTH`] numbers, and answers how many there
/// are. A refusal leaves the list as it was; behind the rows it keeps its numbers.
pub fn changes_into(older: &[u8], newer: &[u8], list: &mut [u32]) -> Result<usize, NotCompared> {
    let numbers = raw::changes(older, newer, list);
    if numbers.refusal == 0 {
        return Ok(numbers.rows);
    }
    Err(NotCompared::told(&numbers))
}

/// What changed between two texts. Indexes are those of the rows that a [`Reader`](crate::Reader) gives of each.
///
/// # Errors
/// If a text is refused or not finished. 16 does not come: the list has the room that it needs.
pub fn changes(older: &[u8], newer: &[u8]) -> Result<Vec<Change>, NotCompared> {
    let mut list = vec![0; 64 * CHANGE_WIDTH];
    let mut rows = changes_into(older, newer, &mut list);
    if rows == Err(NotCompared::NoRoom) {
        list.resize(MOST_CHANGES * CHANGE_WIDTH, 0);
        rows = changes_into(older, newer, &mut list);
    }
    Ok(list[..rows? * CHANGE_WIDTH].chunks(CHANGE_WIDTH).map(Change::told).collect())
}
