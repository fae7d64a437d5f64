//! A small deterministic generator of random numbers.

/// The generator's state.
pub struct Random {
    state: u64,
}

impl Random {
    /// A generator that starts from the seed.
    pub fn new(seed: u64) -> Random {
        Random { state: seed }
    }

    /// The next number, any of 64 bits.
    pub fn word(&mut self) -> u64 {
        self.state = self.state.wrapping_add(0x9E37_79B9_7F4A_7C15);
        let mut mixed = self.state;
        mixed = (mixed ^ (mixed >> 30)).wrapping_mul(0xBF58_476D_1CE4_E5B9);
        mixed = (mixed ^ (mixed >> 27)).wrapping_mul(0x94D0_49BB_1331_11EB);
        mixed ^ (mixed >> 31)
    }

    /// A number from 0 to bound - 1; 0 if the bound is 0.
    pub fn below(&mut self, bound: u64) -> u64 {
        self.word() % bound.max(1)
    }

    /// A number from first to last, both included.
    pub fn between(&mut self, first: u64, last: u64) -> u64 {
        first + self.below(last - first + 1)
    }

    /// True in so many of a hundred draws.
    pub fn chance(&mut self, percent: u64) -> bool {
        self.below(100) < percent
    }

    /// One of the choices.
    pub fn pick<T: Copy>(&mut self, choices: &[T]) -> T {
        choices[self.below(choices.len() as u64) as usize]
    }

    /// The number with one bit, or with none.
    pub fn flag(&mut self, bit: u64, percent: u64) -> u64 {
        if self.chance(percent) {
            bit
        } else {
            0
        }
    }
}

#[cfg(test)]
mod tests {
    use super::Random;

    /// The same seed gives the same numbers, another seed gives others.
    #[test]
    fn a_seed_decides_the_numbers() {
        let (mut one, mut two, mut other) = (Random::new(7), Random::new(7), Random::new(8));
        let first = one.word();
        assert_eq!(first, two.word());
        assert_ne!(first, other.word());
        assert!((0..1000).all(|_| one.below(5) < 5));
    }
}
