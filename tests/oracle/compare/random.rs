// Seeded random numbers (SplitMix64), and small choices made of them.

pub struct Random(u64);

impl Random {
    pub fn new(seed: u64) -> Random {
        Random(seed)
    }

    pub fn next(&mut self) -> u64 {
        self.0 = self.0.wrapping_add(0x9e37_79b9_7f4a_7c15);
        let mut z = self.0;
        z = (z ^ (z >> 30)).wrapping_mul(0xbf58_476d_1ce4_e5b9);
        z = (z ^ (z >> 27)).wrapping_mul(0x94d0_49bb_1331_11eb);
        z ^ (z >> 31)
    }

    // A number below n.
    pub fn below(&mut self, n: u64) -> u64 {
        self.next() % n
    }

    // True in one of n cases.
    pub fn one_in(&mut self, n: u64) -> bool {
        self.below(n) == 0
    }

    pub fn pick<T: Copy>(&mut self, from: &[T]) -> T {
        from[self.below(from.len() as u64) as usize]
    }

    // A number, small more often than large.
    pub fn any(&mut self) -> u64 {
        let bits = self.pick(&[1, 3, 6, 7, 8, 12, 14, 16, 20, 31, 32, 33, 40, 63, 64]);
        self.next() >> (64 - bits)
    }
}
