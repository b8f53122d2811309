//! Pseudo-random numbers (SplitMix64): the same seed gives the same run.

pub struct Random(u64);

impl Random {
    /// Numbers for run `run` of a part, so that one run can be had again by itself.
    pub fn of(seed: u64, part: u64, run: u64) -> Random {
        let mut r = Random(seed);
        r.0 = r.next() ^ part.wrapping_mul(0xd6e8_feb8_6659_fd93);
        r.0 = r.next() ^ run;
        r.next();
        r
    }

    pub fn next(&mut self) -> u64 {
        self.0 = self.0.wrapping_add(0x9e37_79b9_7f4a_7c15);
        let mut z = self.0;
        z = (z ^ (z >> 30)).wrapping_mul(0xbf58_476d_1ce4_e5b9);
        z = (z ^ (z >> 27)).wrapping_mul(0x94d0_49bb_1331_11eb);
        z ^ (z >> 31)
    }

    /// A number below `n`, which is not 0.
    pub fn below(&mut self, n: u64) -> u64 {
        ((self.next() as u128 * n as u128) >> 64) as u64
    }

    pub fn within(&mut self, low: u64, high: u64) -> u64 {
        low + self.below(high - low + 1)
    }

    /// True once in `n` times.
    pub fn once_in(&mut self, n: u64) -> bool {
        self.below(n) == 0
    }

    pub fn pick<T: Copy>(&mut self, from: &[T]) -> T {
        from[self.below(from.len() as u64) as usize]
    }

    pub fn bytes(&mut self, n: usize) -> Vec<u8> {
        (0..n).map(|_| self.next() as u8).collect()
    }

    pub fn key(&mut self) -> [u8; 32] {
        self.bytes(32).try_into().unwrap()
    }

    /// `at` moved by at most `by`, and at least 0.
    pub fn about(&mut self, at: u64, by: u64) -> u64 {
        at.saturating_sub(by).saturating_add(self.below(2 * by + 1))
    }
}
