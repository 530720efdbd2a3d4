//! A small generator of numbers, the same ones in every run of the tests.

pub struct Random(u64);

impl Random {
    pub fn new(seed: u64) -> Random {
        Random(seed.wrapping_mul(0x9e37_79b9_7f4a_7c15) ^ 0x2545_f491_4f6c_dd1d)
    }

    pub fn next(&mut self) -> u64 {
        self.0 = self.0.wrapping_add(0x9e37_79b9_7f4a_7c15);
        let a = (self.0 ^ (self.0 >> 30)).wrapping_mul(0xbf58_476d_1ce4_e5b9);
        let b = (a ^ (a >> 27)).wrapping_mul(0x94d0_49bb_1331_11eb);
        b ^ (b >> 31)
    }

    /// A number from 0 to limit - 1.
    pub fn below(&mut self, limit: u64) -> u64 {
        self.next() % limit
    }

    /// A number from least to most, both included.
    pub fn within(&mut self, least: u64, most: u64) -> u64 {
        least + self.below(most - least + 1)
    }

    /// True once in so many times.
    pub fn once_in(&mut self, times: u64) -> bool {
        self.below(times) == 0
    }

    pub fn pick<T: Copy>(&mut self, from: &[T]) -> T {
        from[self.below(from.len() as u64) as usize]
    }

    pub fn byte(&mut self) -> u8 {
        (self.next() >> 32) as u8
    }

    pub fn bytes(&mut self, count: usize) -> Vec<u8> {
        (0..count).map(|_| self.byte()).collect()
    }

    /// The bytes of a tick of so many cells: any samples and phases, three in four of the samples valid.
    pub fn samples(&mut self, cells: u64) -> Vec<u8> {
        (0..cells).flat_map(|_| [self.byte(), self.byte(), (self.byte() | self.byte()) % 4]).collect()
    }

    /// A number far outside of what any argument may be.
    pub fn extreme(&mut self) -> u64 {
        let near = self.below(3);
        let far = self.next();
        self.pick(&[u64::MAX - near, (1 << 32) + near, (1 << 63) + near, (1 << 31) - near, far])
    }
}
