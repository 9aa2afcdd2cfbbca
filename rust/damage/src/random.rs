//! Random numbers that come again for the same seed: splitmix64.

pub struct Random(u64);

impl Random {
    /// The numbers of one round of a seed.
    pub fn new(seed: u64, round: u64) -> Random {
        let mut random = Random(seed ^ round.wrapping_mul(0xd1b5_4a32_d192_ed03));
        random.any();
        random
    }

    /// Any number.
    pub fn any(&mut self) -> u64 {
        self.0 = self.0.wrapping_add(0x9e37_79b9_7f4a_7c15);
        let z = (self.0 ^ (self.0 >> 30)).wrapping_mul(0xbf58_476d_1ce4_e5b9);
        let z = (z ^ (z >> 27)).wrapping_mul(0x94d0_49bb_1331_11eb);
        z ^ (z >> 31)
    }

    /// A number below k, or 0 where k is 0.
    pub fn below(&mut self, k: usize) -> usize {
        ((self.any() as u128 * k as u128) >> 64) as usize
    }

    /// A number from low to high, both included.
    pub fn from_to(&mut self, low: usize, high: usize) -> usize {
        low + self.below(high - low + 1)
    }

    /// True n times of m.
    pub fn chance(&mut self, n: usize, m: usize) -> bool {
        self.below(m) < n
    }

    /// One of them.
    pub fn one_of<T: Copy>(&mut self, these: &[T]) -> T {
        these[self.below(these.len())]
    }
}
