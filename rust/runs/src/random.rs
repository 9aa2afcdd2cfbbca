//! The generator of all runs: splitmix64.

pub struct Random {
    state: u64,
}

impl Random {
    pub fn new(seed: u64) -> Random {
        Random { state: seed }
    }

    pub fn next(&mut self) -> u64 {
        self.state = self.state.wrapping_add(0x9E37_79B9_7F4A_7C15);
        let mut z = self.state;
        z = (z ^ (z >> 30)).wrapping_mul(0xBF58_476D_1CE4_E5B9);
        z = (z ^ (z >> 27)).wrapping_mul(0x94D0_49BB_1331_11EB);
        z ^ (z >> 31)
    }

    /// A number from 0 to k - 1. One draw.
    pub fn below(&mut self, k: u64) -> u64 {
        assert!(0 < k && k <= 1 << 32, "a draw is of 1 to 2^32 numbers");
        ((self.next() >> 32) * k) >> 32
    }
}

#[cfg(test)]
mod tests {
    use super::*;

    #[test]
    fn first_values() {
        let mut random = Random::new(1);
        let first: Vec<_> = (0..5).map(|_| random.next()).collect();
        assert_eq!(
            first,
            [
                10451216379200822465,
                13757245211066428519,
                17911839290282890590,
                8196980753821780235,
                8195237237126968761
            ]
        );
    }
}
