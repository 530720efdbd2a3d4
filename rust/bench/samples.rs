//! Sampler bytes and small numbers, the same ones in every run.

pub struct Noise(u64);

impl Noise {
    pub fn new(seed: u64) -> Noise {
        Noise(seed.wrapping_mul(0x9e37_79b9_7f4a_7c15) | 1)
    }

    fn next(&mut self) -> u64 {
        self.0 ^= self.0 << 13;
        self.0 ^= self.0 >> 7;
        self.0 ^= self.0 << 17;
        self.0 >> 16
    }

    pub fn below(&mut self, limit: u64) -> u64 {
        self.next() % limit
    }

    /// A number below the limit, or at times the limit itself.
    pub fn near(&mut self, limit: u64) -> u64 {
        if self.below(40) == 0 {
            limit
        } else {
            self.below(limit)
        }
    }

    /// X, Y and validity byte of each of so many cells: any samples and phases, one sample in 16 invalid.
    pub fn samples(&mut self, cells: u64) -> Vec<u8> {
        (0..cells).flat_map(|_| [self.next() as u8, self.next() as u8, self.validity()]).collect()
    }

    fn validity(&mut self) -> u8 {
        [1, 2].into_iter().filter(|_| self.below(16) != 0).sum()
    }
}
