//! Random numbers: xorshift64*. The same on every machine.
pub struct Random(u64);

impl Random {
    /// The numbers for the `k`-th input, which are the same whichever thread asks.
    pub fn new(seed: u64, k: u64) -> Self {
        let mut random = Self((seed ^ k.wrapping_mul(0x9e37_79b9_7f4a_7c15)).max(1));
        random.bits();
        random
    }

    pub fn bits(&mut self) -> u64 {
        self.0 ^= self.0 >> 12;
        self.0 ^= self.0 << 25;
        self.0 ^= self.0 >> 27;
        self.0.wrapping_mul(0x2545_f491_4f6c_dd1d)
    }

    /// The upper half of `bits`, which is mixed better than the lower one.
    pub fn word(&mut self) -> u32 {
        (self.bits() >> 32) as u32
    }

    /// Below `n`.
    pub fn below(&mut self, n: usize) -> usize {
        ((u64::from(self.word()) * n as u64) >> 32) as usize
    }

    /// From `-size` to `size`.
    pub fn within(&mut self, size: i32) -> i32 {
        (self.below(2 * size as usize + 1) as i64 - i64::from(size)) as i32
    }

    pub fn pick<T: Copy>(&mut self, of: &[T]) -> T {
        of[self.below(of.len())]
    }

    /// From `low` to `high`, both included.
    pub fn between(&mut self, low: usize, high: usize) -> usize {
        low + self.below(high - low + 1)
    }

    /// From `low` up to `high`.
    pub fn real(&mut self, low: f64, high: f64) -> f64 {
        low + (high - low) * (self.bits() >> 11) as f64 / (1u64 << 53) as f64
    }

    pub fn once_in(&mut self, n: usize) -> bool {
        self.below(n) == 0
    }
}
