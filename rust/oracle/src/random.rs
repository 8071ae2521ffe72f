//! The small generator of pseudo-random numbers (splitmix64) that every case is made from.

pub struct Random(u64);

impl Random {
    /// The numbers of one case, from the three numbers that name it alone.
    pub fn of(seed: u64, class: u64, index: u64) -> Self {
        let mut random = Random::from_state(seed);
        for number in [class, index] {
            random.0 = random.next() ^ number;
        }
        random
    }

    /// The reference generator from its state.
    pub fn from_state(state: u64) -> Self {
        Random(state)
    }

    // The reference names it so, and it never ends: no iterator.
    #[allow(clippy::should_implement_trait)]
    pub fn next(&mut self) -> u64 {
        self.0 = self.0.wrapping_add(0x9e37_79b9_7f4a_7c15);
        let mut z = self.0;
        z = (z ^ (z >> 30)).wrapping_mul(0xbf58_476d_1ce4_e5b9);
        z = (z ^ (z >> 27)).wrapping_mul(0x94d0_49bb_1331_11eb);
        z ^ (z >> 31)
    }

    /// A number from 0 up to, not including, `bound`, which is not 0.
    pub fn below(&mut self, bound: usize) -> usize {
        (self.next() % bound as u64) as usize
    }

    /// A number from `low` to `high`, both included.
    pub fn within(&mut self, low: usize, high: usize) -> usize {
        low + self.below(high - low + 1)
    }

    /// Whether a thing of this likelihood in a hundred happens.
    pub fn percent(&mut self, likelihood: usize) -> bool {
        self.below(100) < likelihood
    }

    pub fn pick<'a, T: ?Sized>(&mut self, things: &[&'a T]) -> &'a T {
        things[self.below(things.len())]
    }
}
