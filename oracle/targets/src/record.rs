//! A sample of the Rust's answers as lines of fixed width, in hex, for a program to replay:
//! `C MODE CLASS SIZE`, `S MODE ORDER VALUES MASKS KEPT NUMBER VALUES MASKS KEPT` and
//! `T MODE ORDER NUMBER ADDRESS BYTES TARGET`, the order 1 for big.
use crate::cases::{Case, Parts, Random};

/// Bytes in hex, without blanks.
fn hex(bytes: &[u8]) -> String {
    bytes.iter().map(|byte| format!("{byte:02X}")).collect()
}

/// Three parts of four entries.
fn parts(parts: &Parts) -> String {
    format!("{} {} {}", hex(&parts.values), hex(&parts.masks), hex(&parts.kept))
}

/// Every mode's class, one target and, for every fourth, one mode step.
pub fn all(seed: u64) {
    let random = &mut Random::new(seed);
    for mode in 0..2048 {
        let class = oracle::class(mode).expect("a class") as u8;
        println!("C {mode:03X} {class} {}", oracle::on_site_size(mode).expect("a size"));
    }
    for mode in (0..2048).filter(|mode| mode % 4 == mode / 16 % 4) {
        let big = random.below(2) == 1;
        let before = Parts::random(random, 4);
        let (number, after) = before.rust(mode, big).expect("four entries are enough");
        let (before, after) = (parts(&before), parts(&after));
        println!("S {mode:03X} {} {before} {number:06X} {after}", u8::from(big));
    }
    for mode in 0..2048 {
        let big = random.below(2) == 1;
        let case = Case::random(random, mode, big);
        let Case { number, address, bytes, .. } = case;
        let (bytes, target) = (hex(&bytes[..3]), case.rust(3));
        println!(
            "T {mode:03X} {} {number:06X} {address:016X} {bytes} {target:016X}",
            u8::from(big)
        );
    }
}
