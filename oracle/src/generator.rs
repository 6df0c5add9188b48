//! The generator of random numbers. What it gives depends on its seed alone.

/// The generator splitmix64.
pub struct Generator {
    state: u64,
}

impl Generator {
    pub fn new(seed: u64) -> Generator {
        Generator { state: seed }
    }

    /// 64 random bits.
    pub fn bits(&mut self) -> u64 {
        self.state = self.state.wrapping_add(0x9e37_79b9_7f4a_7c15);
        let mut z = self.state;
        z = (z ^ (z >> 30)).wrapping_mul(0xbf58_476d_1ce4_e5b9);
        z = (z ^ (z >> 27)).wrapping_mul(0x94d0_49bb_1331_11eb);
        z ^ (z >> 31)
    }

    /// A whole number from `low` to `high`, both among them.
    pub fn within(&mut self, low: i64, high: i64) -> i64 {
        let count = (high - low + 1) as u128;
        low + ((self.bits() as u128 * count) >> 64) as i64
    }

    /// The same as an i32.
    pub fn whole(&mut self, low: i32, high: i32) -> i32 {
        self.within(low as i64, high as i64) as i32
    }

    /// One of the values.
    pub fn pick<T: Copy>(&mut self, values: &[T]) -> T {
        values[self.within(0, values.len() as i64 - 1) as usize]
    }

    /// True once in `n` times.
    pub fn once_in(&mut self, n: i64) -> bool {
        self.within(1, n) == 1
    }
}
