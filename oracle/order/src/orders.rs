//! The orders in which a module's pairs are tried.
use crate::module::Module;

/// Numbers that follow from a seed (xorshift).
pub struct Numbers(u64);

impl Numbers {
    /// Those of a seed.
    pub fn new(seed: u64) -> Numbers {
        Numbers(seed.wrapping_mul(0x9E37_79B9_7F4A_7C15) | 1)
    }

    /// The next one below a limit.
    fn below(&mut self, limit: usize) -> usize {
        self.0 ^= self.0 << 13;
        self.0 ^= self.0 >> 7;
        self.0 ^= self.0 << 17;
        (self.0 % limit as u64) as usize
    }

    /// Another order of the same things.
    fn shuffle(&mut self, order: &mut [usize]) {
        for last in (1..order.len()).rev() {
            order.swap(last, self.below(last + 1));
        }
    }
}

/// Sorted by address, reversed, and shuffled so many times; without those that are the text's own.
pub fn orders(module: &Module, shuffles: u64, numbers: &mut Numbers) -> Vec<Vec<usize>> {
    let own: Vec<usize> = (0..module.pairs.len()).collect();
    let mut sorted = own.clone();
    sorted.sort_by_key(|number| module.pairs[*number].address);
    let mut all = vec![sorted, own.iter().rev().copied().collect()];
    for _ in 0..shuffles {
        let mut order = own.clone();
        numbers.shuffle(&mut order);
        all.push(order);
    }
    all.retain(|order| *order != own);
    all
}
