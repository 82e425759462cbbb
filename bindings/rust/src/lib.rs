#![doc = include_str!("../README.md")]
#![deny(missing_docs, unsafe_op_in_unsafe_fn, clippy::undocumented_unsafe_blocks)]
// A stop holds the records that a module holds: neither is larger than the other.
#![allow(clippy::result_large_err)]
mod book;
mod changes;
mod convert;
mod explain;
mod halt;
mod lent;
mod module;
mod place;
mod plain;
mod raw;
mod raw_book;
mod raw_convert;
mod raw_write;
mod reader;
mod records;
mod refusal;
mod segment;
mod write;

pub use book::{Book, Pattern};
pub use changes::{
    changes, changes_into, Cell, Change, NotCompared, Side, CHANGE_WIDTH, MOST_CHANGES,
};
pub use convert::{convert, convert_into, NotConverted};
pub use explain::{explain, Writer};
pub use halt::{Counted, Halt, Reason};
pub use lent::Lent;
pub use module::{Fault, Module, NotEqual, NotWhole, Stopped};
pub use place::{mismatch, place, place_into};
pub use plain::Plain;
pub use raw::{rooms, widths, Rooms, Widths};
pub use reader::Reader;
pub use records::{header, Area, Counts, FixupRow, Header, Kept, Records, Refers, Symbol};
pub use refusal::{Refusal, Refused};
pub use segment::{corrected_target, target, Fixup, Reference, Segment};
pub use write::{pairs, Pairs, Rows, FRAGMENT_WIDTH, PAIR_WIDTH};
