//! Numbers for the generated inputs, from splitmix64: the same seed gives the same inputs.

pub struct Random(u64);

impl Random {
    pub fn new(seed: u64) -> Random {
        Random(seed)
    }

    /// Any number of 64 bits.
    pub fn any(&mut self) -> u64 {
        self.0 = self.0.wrapping_add(0x9E37_79B9_7F4A_7C15);
        let mut z = self.0;
        z = (z ^ (z >> 30)).wrapping_mul(0xBF58_476D_1CE4_E5B9);
        z = (z ^ (z >> 27)).wrapping_mul(0x94D0_49BB_1331_11EB);
        z ^ (z >> 31)
    }

    /// A number from `low` to `high`, both included.
    pub fn between(&mut self, low: u64, high: u64) -> u64 {
        assert!(low <= high, "no number from {low} to {high}");
        let count = u128::from(high - low) + 1;
        low + ((u128::from(self.any()) * count) >> 64) as u64
    }

    /// A number from `low` to `high` whose distance from `low` is as often short as long in
    /// binary digits; an even choice would seldom give a small distance.
    pub fn of_any_size(&mut self, low: u64, high: u64) -> u64 {
        let digits = u64::from(u64::BITS - (high - low).leading_zeros());
        let dropped = self.between(0, digits.min(63));
        low + self.between(0, (high - low) >> dropped)
    }

    pub fn one_of<T: Copy>(&mut self, values: &[T]) -> T {
        values[self.index(values.len())]
    }

    /// An index below `length`.
    pub fn index(&mut self, length: usize) -> usize {
        self.between(0, length as u64 - 1) as usize
    }

    /// True in so many of a hundred cases.
    pub fn chance(&mut self, percent: u64) -> bool {
        self.between(1, 100) <= percent
    }

    pub fn shuffle<T>(&mut self, values: &mut [T]) {
        for last in (1..values.len()).rev() {
            values.swap(last, self.index(last + 1));
        }
    }

    /// So many of the values, or all if they are fewer, in their order.
    pub fn some_of<T: Copy>(&mut self, values: &[T], count: usize) -> Vec<T> {
        let mut places: Vec<usize> = (0..values.len()).collect();
        self.shuffle(&mut places);
        places.truncate(count);
        places.sort_unstable();
        places.into_iter().map(|place| values[place]).collect()
    }
}
