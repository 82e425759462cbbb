//! The comparison, and what was counted by class.
use crate::port::{self, Fixup, Refers};
use crate::program::{first, Program, AREAS};
use crate::tools::Linked;
use std::collections::BTreeMap;

/// Of one class: fixups whose block is shared, those whose corrected and ported target is not the map's, and
/// those whose block is not shared.
#[derive(Default)]
struct Counts {
    shared: u64,
    corrected_wrong: u64,
    ported_wrong: u64,
    apart: u64,
}

/// What was compared.
#[derive(Default)]
pub struct Tally {
    pub modules: u64,
    classes: BTreeMap<&'static str, Counts>,
}

impl Tally {
    /// One comparison.
    fn add(
        &mut self,
        class: &'static str,
        mode: u32,
        number: u32,
        address: u64,
        bytes: &[u8],
        goal: u64,
    ) {
        let counts = self.classes.entry(class).or_default();
        if !shared(class, address, goal) {
            counts.apart += 1;
            return;
        }
        let (corrected, ported) = (
            port::corrected(mode, number, address, bytes),
            port::ported(mode, number, address, bytes),
        );
        counts.shared += 1;
        counts.ported_wrong += u64::from(ported.refusal != 0 || ported.target != goal);
        if corrected.refusal != 0 || corrected.target != goal {
            counts.corrected_wrong += 1;
            println!("mode {mode:03X} number {number:X} at {address:X}, bytes {bytes:X?}: {:X} and not {goal:X}", corrected.target);
        }
    }

    /// Prints the counts; whether every corrected target was the map's.
    pub fn end(&self) -> bool {
        println!(
            "class | compared | corrected target wrong | ported target wrong | block not shared"
        );
        for (class, counts) in &self.classes {
            let Counts { shared, corrected_wrong, ported_wrong, apart } = counts;
            println!("{class} | {shared} | {corrected_wrong} | {ported_wrong} | {apart}");
        }
        self.classes.values().all(|counts| counts.corrected_wrong == 0)
    }
}

/// The class of a mode, by document 01's conditions on bits 0, 3, 7 and 8.
fn class(mode: u32) -> &'static str {
    let set = |bit: u32| mode >> bit & 1 == 1;
    match (set(0), set(3), set(7), set(8)) {
        (false, true, true, _) => "Addr19",
        (false, true, false, _) => "Addr11",
        (false, false, true, _) => "Addr24",
        (false, false, false, false) => "Addr16",
        (true, false, _, false) => "Byte",
        _ => "Other",
    }
}

/// Whether what is referred to lies in the block that the class can reach from an address.
fn shared(class: &str, address: u64, goal: u64) -> bool {
    let same = |bits: u32, from: u64| from >> bits == goal >> bits;
    match class {
        "Addr19" => same(19, address + 3) && same(24, address),
        "Addr11" => same(11, address + 2) && same(16, address),
        "Addr24" => same(24, address),
        _ => same(16, address),
    }
}

/// The linked bytes at an address.
fn at(linked: &Linked, address: u64, size: usize) -> Vec<u8> {
    (address..address + size as u64).map(|address| linked.bytes[&address]).collect()
}

/// Every fixup of every module, and every relative jump, for which the assembler writes no fixup.
pub fn program(tally: &mut Tally, program: &Program, linked: &Linked) {
    for (module, text) in linked.modules.iter().enumerate() {
        tally.modules += 1;
        let base = |area: &str| {
            let area = AREAS.iter().position(|name| *name == area).expect("an area of ours");
            linked.labels[&first(module, area)]
        };
        for fixup in port::fixups(text) {
            let Fixup { area, position, size, mode, refers, value, number } = fixup;
            let address = base(&area) + position;
            let goal = value
                + match refers {
                    Refers::Symbol(name) => linked.labels[&name],
                    Refers::Area(name) => base(&name),
                };
            tally.add(class(mode), mode, number, address, &at(linked, address, size), goal);
        }
    }
    for jump in &program.relatives {
        let address = linked.labels[&jump.at] + jump.displacement;
        tally.add(
            "Byte, relative",
            0x05,
            0,
            address,
            &at(linked, address, 1),
            linked.labels[&jump.to],
        );
    }
}
