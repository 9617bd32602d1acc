//! Splitmix64: a fixed seed gives the same numbers everywhere.

pub struct Random(u64);

impl Random {
    pub fn new(seed: u64) -> Self {
        Random(seed)
    }

    pub fn word(&mut self) -> u64 {
        self.0 = self.0.wrapping_add(0x9e3779b97f4a7c15);
        let mut z = self.0;
        z = (z ^ (z >> 30)).wrapping_mul(0xbf58476d1ce4e5b9);
        z = (z ^ (z >> 27)).wrapping_mul(0x94d049bb133111eb);
        z ^ (z >> 31)
    }

    /// 0 to `bound` - 1.
    pub fn below(&mut self, bound: u64) -> u64 {
        ((self.word() as u128 * bound as u128) >> 64) as u64
    }

    pub fn pick<T: Copy>(&mut self, from: &[T]) -> T {
        from[self.below(from.len() as u64) as usize]
    }

    pub fn coin(&mut self) -> bool {
        self.word() >> 63 == 1
    }

    /// Evenly spread from `low` up to `high`.
    pub fn uniform(&mut self, low: f64, high: f64) -> f64 {
        let unit = (self.word() >> 11) as f64 / (1u64 << 53) as f64;
        low + unit * (high - low)
    }

    /// A positive float whose binary exponent is evenly spread from `low` to
    /// `high`, both within -1022..=1023.
    pub fn magnitude(&mut self, low: i32, high: i32) -> f64 {
        let exponent = low + self.below((high - low + 1) as u64) as i32;
        let fraction = self.word() >> 12;
        f64::from_bits(((exponent + 1023) as u64) << 52 | fraction)
    }

    pub fn signed(&mut self, x: f64) -> f64 {
        if self.coin() {
            -x
        } else {
            x
        }
    }
}
