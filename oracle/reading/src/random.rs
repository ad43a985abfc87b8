//! A small generator of pseudo-random numbers (SplitMix64): the same numbers from the same seed on every machine.

#[derive(Clone)]
pub struct Random {
    state: u64,
}

/// One step of SplitMix64's mixing.
pub fn mix(n: u64) -> u64 {
    let n = (n ^ n >> 30).wrapping_mul(0xbf58_476d_1ce4_e5b9);
    let n = (n ^ n >> 27).wrapping_mul(0x94d0_49bb_1331_11eb);
    n ^ n >> 31
}

impl Random {
    pub fn new(seed: u64) -> Random {
        Random { state: seed }
    }
    pub fn number(&mut self) -> u64 {
        self.state = self.state.wrapping_add(0x9e37_79b9_7f4a_7c15);
        mix(self.state)
    }
    /// A number below `n`, which is not 0.
    pub fn below(&mut self, n: usize) -> usize {
        (self.number() % n as u64) as usize
    }
    pub fn between(&mut self, low: u32, high: u32) -> u32 {
        (u64::from(low) + self.number() % (u64::from(high) - u64::from(low) + 1)) as u32
    }
    pub fn chance(&mut self, percent: usize) -> bool {
        self.below(100) < percent
    }
    pub fn pick<T: Copy>(&mut self, items: &[T]) -> T {
        items[self.below(items.len())]
    }
    /// A number of few or many bits.
    pub fn wide(&mut self) -> u64 {
        let bits = self.below(65) as u32;
        self.number().checked_shr(bits).unwrap_or(0)
    }
    /// A place of `weights`, each as likely as its weight.
    pub fn weighted(&mut self, weights: &[usize]) -> usize {
        let mut left = self.below(weights.iter().sum());
        for (i, w) in weights.iter().enumerate() {
            if left < *w {
                return i;
            }
            left -= w;
        }
        unreachable!("below the sum")
    }
}
