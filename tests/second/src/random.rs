//! A small generator of pseudo-random numbers (splitmix64): the same numbers
//! for the same seed, everywhere.

pub struct Random {
    state: u64,
}

impl Random {
    pub fn new(seed: u64) -> Random {
        Random { state: seed }
    }

    fn draw(&mut self) -> u64 {
        self.state = self.state.wrapping_add(0x9E37_79B9_7F4A_7C15);
        let mut z = self.state;
        z = (z ^ (z >> 30)).wrapping_mul(0xBF58_476D_1CE4_E5B9);
        z = (z ^ (z >> 27)).wrapping_mul(0x94D0_49BB_1331_11EB);
        z ^ (z >> 31)
    }

    /// A number below `end`, which is above 0.
    pub fn below(&mut self, end: u64) -> u64 {
        self.draw() % end
    }

    /// A number from `low` to `high`, both included.
    pub fn between(&mut self, low: u64, high: u64) -> u64 {
        low + self.below(high - low + 1)
    }

    /// True in so many of a hundred cases.
    pub fn percent(&mut self, number: u64) -> bool {
        self.below(100) < number
    }

    pub fn bit(&mut self) -> u64 {
        self.below(2)
    }

    /// One of a list.
    pub fn pick<T: Copy>(&mut self, list: &[T]) -> T {
        list[self.below(list.len() as u64) as usize]
    }

    /// One of a list of choices with their weights.
    pub fn weigh<T: Copy>(&mut self, list: &[(u64, T)]) -> T {
        let total = list.iter().map(|choice| choice.0).sum();
        let mut at = self.below(total);
        for (weight, choice) in list {
            if at < *weight {
                return *choice;
            }
            at -= weight;
        }
        unreachable!("the weights add up to the total")
    }

    /// A 32-bit number: often small or at an edge.
    pub fn long(&mut self) -> u64 {
        match self.below(4) {
            0 => self.below(20),
            1 => self.draw() >> 32,
            2 => self.pick(&[0, 1, 255, 256, 65_535, 65_536, 1 << 31, 0xFFFF_FFFF]),
            _ => self.draw() >> (32 + self.below(32)),
        }
    }

    /// A 16-bit number: often at an edge.
    pub fn word(&mut self) -> u64 {
        match self.below(4) {
            0 => self.pick(&[
                0, 1, 0x7F, 0x80, 0xFF, 0x100, 0x0F0F, 0xFF7F, 0xFF00, 0xFFFF,
            ]),
            1 => self.below(256),
            _ => self.below(65_536),
        }
    }
}
