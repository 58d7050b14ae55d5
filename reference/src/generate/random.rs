//! A small seeded source of numbers (splitmix64), the same on every machine.

pub struct Random {
    state: u64,
}

impl Random {
    pub fn new(seed: u64) -> Random {
        Random { state: seed }
    }

    /// A source for the index-th case of a seed, independent of the cases before it.
    pub fn for_case(seed: u64, index: u64) -> Random {
        let mut first = Random::new(seed);
        let base = first.next();
        Random::new(base ^ index.wrapping_mul(0x9E37_79B9_7F4A_7C15))
    }

    pub fn next(&mut self) -> u64 {
        self.state = self.state.wrapping_add(0x9E37_79B9_7F4A_7C15);
        let mut z = self.state;
        z = (z ^ (z >> 30)).wrapping_mul(0xBF58_476D_1CE4_E5B9);
        z = (z ^ (z >> 27)).wrapping_mul(0x94D0_49BB_1331_11EB);
        z ^ (z >> 31)
    }

    /// A number below `bound`; 0 for a bound of 0.
    pub fn below(&mut self, bound: usize) -> usize {
        if bound == 0 {
            return 0;
        }
        (((self.next() >> 32) * bound as u64) >> 32) as usize
    }

    /// A number from `low` to `high`, both included.
    pub fn between(&mut self, low: usize, high: usize) -> usize {
        low + self.below(high + 1 - low)
    }

    /// True in about `percent` of a hundred.
    pub fn chance(&mut self, percent: usize) -> bool {
        self.below(100) < percent
    }

    /// One of the items; the list is not empty.
    pub fn pick<T: Copy>(&mut self, items: &[T]) -> T {
        items[self.below(items.len())]
    }

    /// A mask within another, each fact about one time in two to the power `thin`.
    pub fn mask(&mut self, within: u64, thin: usize) -> u64 {
        (0..thin).fold(within, |mask, _| mask & self.next())
    }

    /// The bit of one fact of the mask; 0 for an empty mask.
    pub fn bit(&mut self, mask: u64) -> u64 {
        let skip = self.below(mask.count_ones() as usize);
        let rest = (0..skip).fold(mask, |rest, _| rest & (rest - 1));
        rest & rest.wrapping_neg()
    }
}
