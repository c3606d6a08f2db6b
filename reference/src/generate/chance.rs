//! A small source of pseudo-random numbers, the same on every machine.

/// Splitmix64: a counter whose values are well mixed.
#[derive(Clone, Debug)]
pub struct Chance {
    state: u64,
}

impl Chance {
    const STEP: u64 = 0x9E37_79B9_7F4A_7C15;

    /// A source of its own for each number.
    pub fn new(number: u64) -> Chance {
        const SEED: u64 = 0x7032_1974_0B05_1A5E;
        let mut chance = Chance {
            state: SEED ^ number.wrapping_mul(0xD134_2543_DE82_EF95),
        };
        chance.state = chance.next();
        chance
    }

    fn next(&mut self) -> u64 {
        self.state = self.state.wrapping_add(Chance::STEP);
        let mixed = (self.state ^ self.state >> 30).wrapping_mul(0xBF58_476D_1CE4_E5B9);
        let mixed = (mixed ^ mixed >> 27).wrapping_mul(0x94D0_49BB_1331_11EB);
        mixed ^ mixed >> 31
    }

    /// 32 random bits.
    pub fn bits(&mut self) -> u32 {
        (self.next() >> 32) as u32
    }

    pub fn halfword(&mut self) -> u16 {
        self.bits() as u16
    }

    pub fn byte(&mut self) -> u8 {
        self.bits() as u8
    }

    /// A number below the limit, which is above 0.
    pub fn below(&mut self, limit: u32) -> u32 {
        ((u64::from(self.bits()) * u64::from(limit)) >> 32) as u32
    }

    /// A number from the first to the last, both included.
    pub fn between(&mut self, first: u32, last: u32) -> u32 {
        first + self.below(last - first + 1)
    }

    /// True in so many cases of a hundred.
    pub fn percent(&mut self, cases: u32) -> bool {
        self.below(100) < cases
    }

    pub fn pick<T: Copy>(&mut self, choices: &[T]) -> T {
        choices[self.below(choices.len() as u32) as usize]
    }

    /// One of the choices, each with its weight.
    pub fn weighted<T: Copy>(&mut self, choices: &[(u32, T)]) -> T {
        let total = choices.iter().map(|(weight, _)| weight).sum();
        let mut left = self.below(total);
        for &(weight, choice) in choices {
            if left < weight {
                return choice;
            }
            left -= weight;
        }
        unreachable!("the number is below the sum of the weights")
    }
}

#[cfg(test)]
mod tests {
    use super::*;

    #[test]
    fn numbers_stay_within_their_limits_and_reach_them() {
        let mut chance = Chance::new(1);
        let mut seen = [false; 6];
        for _ in 0..1000 {
            seen[chance.between(10, 15) as usize - 10] = true;
        }
        assert_eq!(seen, [true; 6]);
    }

    #[test]
    fn sources_of_different_numbers_differ() {
        assert_ne!(Chance::new(1).bits(), Chance::new(2).bits());
        assert_eq!(Chance::new(7).bits(), Chance::new(7).bits());
    }

    #[test]
    fn weights_count() {
        let mut chance = Chance::new(3);
        assert!((0..100).all(|_| chance.weighted(&[(0, 1), (5, 2), (0, 3)]) == 2));
    }
}
