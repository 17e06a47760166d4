//! Numbers from a seed (splitmix64).

pub struct Random(u64);

impl Random {
    /// Each scene of a seed has numbers of its own.
    pub fn new(seed: u64, scene: u64) -> Random {
        let mut r = Random(seed.wrapping_mul(0x2545_F491_4F6C_DD1D) ^ scene.wrapping_mul(0x9E6C_63D0_676A_9A99));
        r.next();
        r
    }

    pub fn next(&mut self) -> u64 {
        self.0 = self.0.wrapping_add(0x9E37_79B9_7F4A_7C15);
        let z = (self.0 ^ (self.0 >> 30)).wrapping_mul(0xBF58_476D_1CE4_E5B9);
        let z = (z ^ (z >> 27)).wrapping_mul(0x94D0_49BB_1331_11EB);
        z ^ (z >> 31)
    }

    /// 0 to n - 1.
    pub fn below(&mut self, n: usize) -> usize {
        (self.next() % n as u64) as usize
    }

    pub fn in_hundred(&mut self, percent: usize) -> bool {
        self.below(100) < percent
    }

    pub fn one_of<T: Clone>(&mut self, all: &[T]) -> T {
        all[self.below(all.len())].clone()
    }
}
