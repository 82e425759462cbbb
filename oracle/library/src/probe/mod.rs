//! A child module of the source, which sees its private functions: each is given plain types, and
//! answers with its value and the bytes it used.
use super::{
    parse_module, Aslink3Area, Aslink3Mod, Aslink3Objects, Aslink3Rel, Aslink3RelFrag,
    Aslink3Symdr, Endian, Radix,
};
use crate::find::{Segment, SegmentCollection};
use crate::rows;
use std::convert::TryFrom;

mod modes;
mod places;
pub mod readers;
pub use modes::{class, closures, mode_step, on_site_size, target};
pub use places::{places, Place, Places};

/// The source's format for a plain one.
fn format_of(format: rows::Format) -> (Radix, Endian, u8) {
    let radix = match format.radix {
        rows::Radix::Hex => Radix::Hex,
        rows::Radix::Decimal => Radix::Dec,
        rows::Radix::Octal => Radix::Oct,
    };
    (radix, order_of(format.big), format.length)
}

/// The source's order.
fn order_of(big: bool) -> Endian {
    if big {
        Endian::Big
    } else {
        Endian::Little
    }
}

/// A plain format for the source's.
fn plain_format((radix, order, length): (Radix, Endian, u8)) -> rows::Format {
    let radix = match radix {
        Radix::Hex => rows::Radix::Hex,
        Radix::Dec => rows::Radix::Decimal,
        Radix::Oct => rows::Radix::Octal,
    };
    rows::Format { radix, big: order == Endian::Big, length }
}

/// A plain row for an area.
fn plain_area(area: &Aslink3Area) -> rows::Area {
    rows::Area {
        name: area.name.clone(),
        size: area.size,
        absolute: area.absolute,
        code: area.code,
        base: area.base,
    }
}

/// A plain row for a symbol.
fn plain_symbol(symbol: &Aslink3Symdr) -> rows::Symbol {
    rows::Symbol {
        name: symbol.symbol.clone(),
        reference: symbol.reference,
        value: symbol.value,
        area: symbol.area,
    }
}

/// Plain rows for fragments.
fn plain_fragments(fragments: &[Aslink3RelFrag]) -> Vec<rows::Fragment> {
    let plain = |fragment: &Aslink3RelFrag| rows::Fragment {
        mode: fragment.mode.bits(),
        entry: fragment.offset,
        index: fragment.symarea,
    };
    fragments.iter().map(plain).collect()
}

/// A plain row for a pair.
fn plain_pair(pair: &Aslink3Rel) -> rows::Pair {
    rows::Pair {
        address: pair.content.offset,
        content: pair.content.bytes.clone(),
        area: pair.area,
        fragments: plain_fragments(&pair.frags),
    }
}

/// A module as the source holds it.
pub struct Parsed(Aslink3Mod);

/// The source's whole parsing, and the place where its rest begins; none without a header.
pub fn parse(text: &str) -> Option<(Parsed, usize)> {
    let (rest, module) = parse_module(text).ok()?;
    Some((Parsed(module), text.len() - rest.len()))
}

impl Parsed {
    /// The module's tables as plain rows.
    pub fn tables(&self, rest: usize) -> rows::Tables {
        rows::Tables {
            format: plain_format(self.0.format),
            areas: self.0.areas.iter().map(plain_area).collect(),
            symbols: self.0.syms.iter().map(plain_symbol).collect(),
            pairs: self.0.rels.iter().map(plain_pair).collect(),
            rest,
        }
    }

    /// The same module with its first pairs alone.
    pub fn first_pairs(mut self, count: usize) -> Self {
        self.0.rels.truncate(count);
        self
    }

    /// The source's conversion of this one module.
    pub fn convert(self) -> Vec<Segment> {
        let objects = vec![self.0];
        let collection = SegmentCollection::try_from(Aslink3Objects { objects });
        collection.expect("the source answers no error here").0
    }
}
