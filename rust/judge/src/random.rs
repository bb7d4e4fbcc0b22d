//! A seeded generator of numbers (splitmix64): the same seed gives the same sheets and texts everywhere, so that a
//! failure can be run again.

pub struct Random {
    state: u64,
}

impl Random {
    /// The generator of one numbered sheet or text of a seed. Each has its own, so that it does not depend on how much
    /// those before it drew.
    pub fn new(seed: u64, number: u64) -> Random {
        let mut start = Random { state: seed };
        let state = start.word() ^ number.wrapping_mul(0xd134_2543_de82_ef95);
        Random { state }
    }

    /// Any 64 bits.
    pub fn word(&mut self) -> u64 {
        self.state = self.state.wrapping_add(0x9e37_79b9_7f4a_7c15);
        let mut z = self.state;
        z = (z ^ (z >> 30)).wrapping_mul(0xbf58_476d_1ce4_e5b9);
        z = (z ^ (z >> 27)).wrapping_mul(0x94d0_49bb_1331_11eb);
        z ^ (z >> 31)
    }

    /// A number below `end`, which is above 0.
    pub fn below(&mut self, end: usize) -> usize {
        ((self.word() as u128 * end as u128) >> 64) as usize
    }

    /// A number below `end`, in two of three cases the first or the last, where a count that is wrong by one shows.
    pub fn edge(&mut self, end: usize) -> usize {
        let inner = self.below(end);
        self.pick(&[0, end - 1, inner])
    }

    /// An integer from `low` to `high`, both included.
    pub fn within(&mut self, low: i64, high: i64) -> i64 {
        low + self.below((high - low + 1) as usize) as i64
    }

    /// True in `percent` of 100 cases.
    pub fn chance(&mut self, percent: usize) -> bool {
        self.below(100) < percent
    }

    pub fn pick<T: Copy>(&mut self, from: &[T]) -> T {
        from[self.below(from.len())]
    }

    /// Any order.
    pub fn shuffle<T>(&mut self, all: &mut [T]) {
        for end in (1..all.len()).rev() {
            all.swap(end, self.below(end + 1));
        }
    }

    /// Words of any value, as a caller's memory may hold.
    pub fn words(&mut self, length: usize) -> Vec<i64> {
        (0..length).map(|_| self.word() as i64).collect()
    }

    /// Bytes of any value.
    pub fn bytes(&mut self, length: usize) -> Vec<u8> {
        let words = self.words(length.div_ceil(8));
        words.iter().flat_map(|word| word.to_le_bytes()).take(length).collect()
    }
}
