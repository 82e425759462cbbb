//! The inputs: edges, and random ones of a seed.

/// A generator of 64-bit numbers; the same seed gives the same numbers.
pub struct Random(u64);

impl Random {
    /// A generator of a seed.
    pub fn new(seed: u64) -> Self {
        Self(seed)
    }

    /// The next number.
    pub fn next(&mut self) -> u64 {
        self.0 = self.0.wrapping_add(0x9E37_79B9_7F4A_7C15);
        let mixed = (self.0 ^ self.0 >> 30).wrapping_mul(0xBF58_476D_1CE4_E5B9);
        let mixed = (mixed ^ mixed >> 27).wrapping_mul(0x94D0_49BB_1331_11EB);
        mixed ^ mixed >> 31
    }

    /// A number below a bound.
    pub fn below(&mut self, bound: u64) -> u64 {
        self.next() % bound
    }

    /// One of some.
    pub fn one<T: Copy>(&mut self, of: &[T]) -> T {
        of[self.below(of.len() as u64) as usize]
    }
}

/// Numbers at edges: of shift counts, of sign bits, of the bound.
pub const NUMBERS: [u32; 13] =
    [0, 1, 2, 63, 64, 127, 128, 0x7FFF, 0x8000, 0xFFFF, 1 << 23, (1 << 24) - 2, (1 << 24) - 1];

/// Addresses at edges: of blocks of 11, 16, 19 and 24 bits, of 32 and of 64 bits.
pub const ADDRESSES: [u64; 20] = [
    0,
    1,
    0x10,
    0x7FD,
    0x7FE,
    0xFFFD,
    0xFFFE,
    0xFFFF,
    0x1_0000,
    0x2_5678,
    0x7_FFFC,
    0x7_FFFD,
    0xFF_FFFC,
    0xFF_FFFD,
    0xFF_FFFF,
    0x100_0000,
    0xFFFF_FFFE,
    0x1_0000_0000,
    u64::MAX - 1,
    u64::MAX,
];

/// Bytes on site at edges of their signs.
pub const BYTES: [[u8; 4]; 6] = [
    [0, 0, 0, 0],
    [0xFF, 0xFF, 0xFF, 0xFF],
    [0x7F, 0xFF, 0xFF, 0x7F],
    [0x80, 0x00, 0x80, 0x00],
    [0x07, 0xFF, 0x04, 0x00],
    [0x04, 0x00, 0x07, 0xFF],
];

/// Every edge, then some random ones.
pub fn numbers(random: &mut Random) -> Vec<u32> {
    let more = [24, 24, 16, 8].map(|bits| random.below(1 << bits) as u32);
    NUMBERS.into_iter().chain(more).collect()
}

/// Every edge, then a random one of 64, 40, 24 and 16 bits.
pub fn addresses(random: &mut Random) -> Vec<u64> {
    let more = [0, 24, 40, 48].map(|shift| random.next() >> shift);
    ADDRESSES.into_iter().chain(more).collect()
}

/// Every edge, then random ones.
pub fn bytes(random: &mut Random) -> Vec<[u8; 4]> {
    let more = [(); 3].map(|()| (random.next() as u32).to_le_bytes());
    BYTES.into_iter().chain(more).collect()
}

/// One input of a target below the bounds.
#[derive(Clone, Copy, Debug)]
pub struct Case {
    pub mode: u16,
    pub big: bool,
    pub number: u32,
    pub address: u64,
    pub bytes: [u8; 4],
}

impl Case {
    /// One that is random, with an edge in half of its places.
    pub fn random(random: &mut Random, mode: u16, big: bool) -> Self {
        let number = match random.below(2) {
            0 => random.one(&NUMBERS),
            _ => random.below(1 << 24) as u32,
        };
        let address = match random.below(4) {
            0 => random.one(&ADDRESSES),
            1 => random.next(),
            2 => random.below(1 << 16),
            _ => random.below(1 << 32),
        };
        let bytes = match random.below(4) {
            0 => random.one(&BYTES),
            _ => (random.next() as u32).to_le_bytes(),
        };
        Self { mode, big, number, address, bytes }
    }

    /// What the Rust answers.
    pub fn rust(&self, length: usize) -> u64 {
        let Self { mode, big, number, address, bytes } = *self;
        let answer = oracle::target(mode, big, number as usize, &bytes[..length], address as usize);
        answer.expect("the Rust panicked") as u64
    }
}

/// The parts that a mode step is lent: values, masks and kept flags.
#[derive(Clone, Debug, PartialEq, Eq)]
pub struct Parts {
    pub values: Vec<u8>,
    pub masks: Vec<u8>,
    pub kept: Vec<u8>,
}

impl Parts {
    /// Random parts of one length.
    pub fn random(random: &mut Random, length: usize) -> Self {
        let mut part = |least: u8, span: u64| -> Vec<u8> {
            (0..length).map(|_| least + random.below(span) as u8).collect()
        };
        Self { values: part(0, 256), masks: part(0, 256), kept: part(0, 2) }
    }

    /// What the Rust makes of them: its number and the parts afterwards; none where it panics.
    pub fn rust(&self, mode: u16, big: bool) -> Option<(u32, Self)> {
        let format = oracle::Format { radix: oracle::Radix::Hex, big, length: 3 };
        let masked = self.values.iter().zip(&self.masks);
        let entry = |((value, mask), kept): ((&u8, &u8), &u8)| (*value, *mask, *kept == 1);
        let mut entries: Vec<_> = masked.zip(&self.kept).map(entry).collect();
        let number = oracle::mode_step(format, mode, &mut entries)?;
        let after = Self {
            values: entries.iter().map(|entry| entry.0).collect(),
            masks: entries.iter().map(|entry| entry.1).collect(),
            kept: entries.iter().map(|entry| entry.2.into()).collect(),
        };
        Some((number as u32, after))
    }
}
