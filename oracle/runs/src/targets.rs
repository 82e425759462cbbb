//! Targets, the library's against the Rust's.
use gatecobalt::Refusal;
use oracle::generate::Random;
use oracle::{on_site_size, Fixup};

/// Addresses that are tried beside random ones.
const ADDRESSES: [u64; 6] = [0, 0x10, 0x1000, 0xFFFF, 0x2_5678, u64::MAX];

/// Targets that are compared for each fixup.
const FOR_A_FIXUP: usize = 3;

/// An address: a named one, one of 16 or 24 bits, or any.
fn address(random: &mut Random) -> u64 {
    match random.below(4) {
        0 => random.pick(&ADDRESSES),
        1 => random.draw() >> 48,
        2 => random.draw() >> 40,
        _ => random.draw(),
    }
}

/// Compares a fixup's targets at some addresses; answers how many.
pub fn of_fixup(
    random: &mut Random,
    big: bool,
    row: &[u32],
    fixup: &Fixup,
) -> Result<usize, &'static str> {
    for _ in 0..FOR_A_FIXUP {
        let bytes = random.draw().to_le_bytes();
        let (site, at) = (&bytes[..fixup.size], address(random));
        let told = fixup.target(site, at as usize).map(|target| target as u64);
        if gatecobalt::target(row[3], big, row[8], at, site).ok() != told {
            return Err("a fixup's target");
        }
    }
    Ok(FOR_A_FIXUP)
}

/// Compares targets of any mode and number, refusal 14 among them.
pub fn any(random: &mut Random, count: usize) -> Result<usize, &'static str> {
    for _ in 0..count {
        let mode = random.below(2048 + 64) as u32;
        let number = (random.draw() >> random.pick(&[39, 40, 48, 56])) as u32;
        let bytes = random.draw().to_le_bytes();
        let (site, at) = (&bytes[..random.below(5)], address(random));
        let big = random.chance(50);
        let size = on_site_size(mode as u16);
        let fits = number < 1 << 24 && size.is_some_and(|size| size <= site.len());
        let told = gatecobalt::target(mode, big, number, at, site);
        let same = if fits {
            let rust = oracle::target(mode as u16, big, number as usize, site, at as usize);
            told.ok() == rust.map(|target| target as u64)
        } else {
            told == Err(Refusal::NoTarget)
        };
        if !same {
            return Err("a target");
        }
    }
    Ok(count)
}
