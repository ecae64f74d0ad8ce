//! A small random number generator: one seed always gives the same numbers.

use crate::side::Side;

/// SplitMix64.
pub struct Dice {
    state: u64,
}

impl Dice {
    pub fn new(seed: u64) -> Dice {
        Dice { state: seed }
    }

    fn next(&mut self) -> u64 {
        self.state = self.state.wrapping_add(0x9E37_79B9_7F4A_7C15);
        let mut z = self.state;
        z = (z ^ (z >> 30)).wrapping_mul(0xBF58_476D_1CE4_E5B9);
        z = (z ^ (z >> 27)).wrapping_mul(0x94D0_49BB_1331_11EB);
        z ^ (z >> 31)
    }

    pub fn below(&mut self, limit: usize) -> usize {
        (self.next() >> 33) as usize % limit
    }

    /// True in so many of a hundred throws.
    pub fn percent(&mut self, chance: usize) -> bool {
        self.below(100) < chance
    }

    pub fn side(&mut self) -> Side {
        if self.percent(50) {
            Side::A
        } else {
            Side::B
        }
    }

    /// So many for one side and so many for the other, in any order.
    pub fn mixed(&mut self, side: Side, own: usize, theirs: usize) -> Vec<Side> {
        let mut all = vec![side; own];
        all.extend(vec![side.other(); theirs]);
        for i in (1..all.len()).rev() {
            all.swap(i, self.below(i + 1));
        }
        all
    }
}
