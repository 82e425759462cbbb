//! Refusals.
use std::{error, fmt};

/// Why a text, a target, rows or a pattern book is refused. The number of each is that of the rules.
#[derive(Clone, Copy, Debug, PartialEq, Eq, PartialOrd, Ord, Hash)]
#[non_exhaustive]
#[repr(u32)]
pub enum Refusal {
    /// A lent buffer is too short.
    ShortBuffer = 1,
    /// The text is longer than 65,536 bytes.
    LongText = 2,
    /// A byte above 127.
    HighByte = 3,
    /// No header.
    NoHeader = 4,
    /// More than 64 areas.
    ManyAreas = 5,
    /// More than 1,024 symbols.
    ManySymbols = 6,
    /// More than 256 content bytes in a pair.
    MuchContent = 7,
    /// More than 64 fragments in a pair.
    ManyFragments = 8,
    /// Kept areas larger than 65,536 in all.
    LargeAreas = 9,
    /// A fragment runs past its line.
    PastLine = 10,
    /// A symbol index past the table.
    PastSymbols = 11,
    /// A fixup has no number.
    NoNumber = 12,
    /// More than 1,024 fixups.
    ManyFixups = 13,
    /// A target of a mode over 2,047, of a number of 24 bits or more, or of too few bytes.
    NoTarget = 14,
    /// The text that would be written from rows would not give them back.
    NotGivenBack = 15,
    /// Too little room for what is to be written.
    ShortText = 16,
    /// A header of Q or D, which only the plain reading takes.
    NotHex = 18,
    /// No kept area with this id, or no such position in it.
    NoPosition = 20,
    /// A pattern book's contents are out of order, have equal names or point out of the file.
    NoContents = 21,
    /// A pattern book has a gap, an overlap or bytes left over.
    NotClosed = 22,
    /// The name is not in the pattern book.
    NotInBook = 23,
    /// Too little room for a pattern.
    NoRoom = 24,
    /// A module outside the conditions under which code is placed.
    NotPlaced = 25,
}

/// Every refusal, in the order of their numbers.
const ALL: [Refusal; 23] = [
    Refusal::ShortBuffer,
    Refusal::LongText,
    Refusal::HighByte,
    Refusal::NoHeader,
    Refusal::ManyAreas,
    Refusal::ManySymbols,
    Refusal::MuchContent,
    Refusal::ManyFragments,
    Refusal::LargeAreas,
    Refusal::PastLine,
    Refusal::PastSymbols,
    Refusal::NoNumber,
    Refusal::ManyFixups,
    Refusal::NoTarget,
    Refusal::NotGivenBack,
    Refusal::ShortText,
    Refusal::NotHex,
    Refusal::NoPosition,
    Refusal::NoContents,
    Refusal::NotClosed,
    Refusal::NotInBook,
    Refusal::NoRoom,
    Refusal::NotPlaced,
];

impl Refusal {
    /// Its number, 1 to 16, 18 or 20 to 25.
    #[must_use]
    pub fn number(self) -> u32 {
        self as u32
    }

    /// The refusal with a number, if there is one.
    #[must_use]
    pub fn from_number(number: u32) -> Option<Refusal> {
        ALL.into_iter().find(|refusal| refusal.number() == number)
    }

    /// What it means.
    #[must_use]
    pub fn meaning(self) -> &'static str {
        match self {
            Refusal::ShortBuffer => "a lent buffer is too short",
            Refusal::LongText => "the text is longer than 65,536 bytes",
            Refusal::HighByte => "a byte above 127",
            Refusal::NoHeader => "no header",
            Refusal::ManyAreas => "more than 64 areas",
            Refusal::ManySymbols => "more than 1,024 symbols",
            Refusal::MuchContent => "more than 256 content bytes in a pair",
            Refusal::ManyFragments => "more than 64 fragments in a pair",
            Refusal::LargeAreas => "kept areas larger than 65,536 in all",
            Refusal::PastLine => "a fragment runs past its line",
            Refusal::PastSymbols => "a symbol index past the table",
            Refusal::NoNumber => "a fixup has no number",
            Refusal::ManyFixups => "more than 1,024 fixups",
            Refusal::NoTarget => {
                "a target of a mode over 2,047, a number of 24 bits or more, or too few bytes"
            }
            Refusal::NotGivenBack => "the text would be refused or read back otherwise",
            Refusal::ShortText => "too little room for the text",
            Refusal::NotHex => "a header of Q or D",
            Refusal::NoPosition => "no kept area with this id, or no such position in it",
            Refusal::NoContents => "contents out of order, with equal names or out of the file",
            Refusal::NotClosed => "a gap, an overlap or bytes left over",
            Refusal::NotInBook => "the name is not in the book",
            Refusal::NoRoom => "too little room for the pattern",
            Refusal::NotPlaced => "a module outside the conditions under which code is placed",
        }
    }

    /// What a number of the library's answer says: 0 is no refusal.
    pub(crate) fn told(number: u32) -> Result<(), Refusal> {
        if number == 0 {
            return Ok(());
        }
        Err(Refusal::from_number(number).expect("a library with the refusals of this crate"))
    }
}

impl fmt::Display for Refusal {
    /// The number and the meaning.
    fn fmt(&self, out: &mut fmt::Formatter) -> fmt::Result {
        write!(out, "refused {}: {}", self.number(), self.meaning())
    }
}

impl error::Error for Refusal {}

/// A text that is refused: why, and at which place.
#[derive(Clone, Copy, Debug, PartialEq, Eq)]
pub struct Refused {
    /// Why.
    pub refusal: Refusal,
    /// Where the text gives the reason, counted in bytes from 0; 0 where the whole text does.
    pub place: usize,
}

impl fmt::Display for Refused {
    /// The number, the place and the meaning.
    fn fmt(&self, out: &mut fmt::Formatter) -> fmt::Result {
        let Refused { refusal, place } = self;
        write!(out, "refused {} at {place}: {}", refusal.number(), refusal.meaning())
    }
}

impl error::Error for Refused {}
