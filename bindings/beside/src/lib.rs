//! Comparison of a module's segments with those of the old Rust module.
use gatecobalt::{Fixup, Reference, Segment};
use oracle::{Kept, Reference as Old};

/// Addresses at which targets are compared.
const ADDRESSES: [usize; 6] = [0, 0x10, 0x1000, 0xFFFF, 0x2_5678, usize::MAX];

/// Bytes on site for which targets are compared.
const BYTES: [[u8; 3]; 4] = [[0; 3], [0xFF; 3], [0x71, 0x23, 0x45], [0x80, 0x07, 0xF8]];

/// Whether two references say the same.
fn same_reference(new: &Reference, old: &Old) -> bool {
    match (new, old) {
        (Reference::Public(name, value), Old::Outside { name: old, value: at }) => {
            name == old && value == at
        }
        (Reference::Segment(id, value), Old::Area { id: old, value: at }) => {
            id == old && value == at
        }
        _ => false,
    }
}

/// Whether two fixups are the same and give the same targets.
fn same_fixup(new: &Fixup, old: &oracle::Fixup) -> bool {
    let function = new.function();
    (new.position, new.size) == (old.position, old.size)
        && same_reference(&new.reference, &old.reference)
        && BYTES.iter().all(|bytes| {
            ADDRESSES.iter().all(|address| {
                old.target(&bytes[..new.size], *address)
                    == Some(function(&bytes[..new.size], *address))
            })
        })
}

/// Whether a segment is the old module's.
pub fn same_segment(new: &Segment, old: &Kept) -> bool {
    new.base == old.base
        && new.content == old.image
        && new.symbols == old.symbols
        && new.fixups.len() == old.fixups.len()
        && new.fixups.iter().zip(&old.fixups).all(|(new, old)| same_fixup(new, old))
}
