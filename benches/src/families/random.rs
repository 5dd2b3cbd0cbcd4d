//! A small generator of random numbers, so that every run draws the same instances.

/// Splitmix64.
pub struct Random(u64);

impl Random {
    pub fn new(seed: u64) -> Random {
        Random(seed)
    }

    pub fn word(&mut self) -> u64 {
        self.0 = self.0.wrapping_add(0x9e37_79b9_7f4a_7c15);
        let mut z = self.0;
        z = (z ^ (z >> 30)).wrapping_mul(0xbf58_476d_1ce4_e5b9);
        z = (z ^ (z >> 27)).wrapping_mul(0x94d0_49bb_1331_11eb);
        z ^ (z >> 31)
    }

    /// Uniform, up to a bias that is of no matter at such small bounds.
    pub fn below(&mut self, bound: usize) -> usize {
        (self.word() % bound as u64) as usize
    }

    /// Uniform from 0 to 1.
    pub fn share(&mut self) -> f64 {
        (self.word() >> 11) as f64 / (1u64 << 53) as f64
    }

    pub fn chance(&mut self, probability: f64) -> bool {
        self.share() < probability
    }

    /// The sum of twelve uniform draws is used for the normal distribution: no library function comes in that might
    /// round otherwise elsewhere.
    pub fn normal(&mut self, mean: f64, deviation: f64) -> f64 {
        let sum: f64 = (0..12).map(|_| self.share()).sum();
        mean + deviation * (sum - 6.0)
    }

    /// The numbers below the bound in random order (Fisher and Yates).
    pub fn shuffled(&mut self, bound: usize) -> Vec<usize> {
        let mut all: Vec<usize> = (0..bound).collect();
        for i in (1..bound).rev() {
            all.swap(i, self.below(i + 1));
        }
        all
    }

    /// `size` different numbers below the bound, as a set.
    pub fn subset(&mut self, size: usize, bound: usize) -> u64 {
        self.shuffled(bound).into_iter().take(size).map(|member| 1 << member).sum()
    }
}
