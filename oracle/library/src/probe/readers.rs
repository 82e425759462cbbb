//! The source's line readers one by one: each answers with its value and the bytes it used, or
//! with none.
use super::super as source;
use super::{format_of, plain_area, plain_format, plain_pair, plain_symbol};
use crate::rows::{Area, Content, Format, Pair, Symbol};
use nom::IResult;

/// A value and the bytes used for it.
pub type Used<T> = Option<(T, usize)>;

/// The value of a reader's answer and the bytes it used.
fn used<T>(text: &str, answer: IResult<&str, T>) -> Used<T> {
    let (rest, value) = answer.ok()?;
    Some((value, text.len() - rest.len()))
}

/// The same with a plain row for the value.
fn plain<T, U>(text: &str, answer: IResult<&str, T>, row: impl Fn(T) -> U) -> Used<U> {
    used(text, answer).map(|(value, bytes)| (row(value), bytes))
}

/// The header: radix, order and address length.
pub fn format_spec(text: &str) -> Used<Format> {
    plain(text, source::format_spec(text), plain_format)
}

/// A number of the radix, below 2^32.
pub fn parse_number(format: Format, text: &str) -> Used<u32> {
    used(text, source::parse_number(format_of(format))(text))
}

/// A number below 256.
pub fn parse_byte(format: Format, text: &str) -> Used<u8> {
    used(text, source::parse_byte(format_of(format))(text))
}

/// An address: as many bytes as the format says, joined.
pub fn parse_multi_number(format: Format, text: &str) -> Used<u32> {
    used(text, source::parse_multi_number(format_of(format))(text))
}

/// An index: two bytes, joined.
pub fn parse_area_index(format: Format, text: &str) -> Used<u16> {
    used(text, source::parse_area_index(format_of(format))(text))
}

/// An A line.
pub fn parse_area(format: Format, text: &str) -> Used<Area> {
    let answer = source::parse_area(format_of(format))(text);
    plain(text, answer, |area| plain_area(&area))
}

/// A T line: its address and content.
pub fn parse_content(format: Format, text: &str) -> Used<Content> {
    let answer = source::parse_content(format_of(format))(text);
    plain(text, answer, |content| Content { address: content.offset, bytes: content.bytes })
}

/// A mode of one byte, or of two behind the escape.
pub fn parse_extended_mode(format: Format, text: &str) -> Used<u16> {
    let answer = source::parse_extended_mode(format_of(format))(text);
    plain(text, answer, |mode| mode.bits())
}

/// A T line and its R line.
pub fn parse_reloc(format: Format, text: &str) -> Used<Pair> {
    let answer = source::parse_reloc(format_of(format))(text);
    plain(text, answer, |pair| plain_pair(&pair))
}

/// An S line; its area is not told yet.
pub fn parse_symdefref(format: Format, text: &str) -> Used<Symbol> {
    let answer = source::parse_symdefref(format_of(format))(text);
    plain(text, answer, |symbol| plain_symbol(&symbol))
}

/// A line that begins with one of these letters and has at least one more character.
pub fn ignore_line(letters: &'static str, text: &str) -> Used<()> {
    used(text, source::ignore_line(letters)(text))
}
