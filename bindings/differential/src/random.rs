//! A small pseudo-random generator (splitmix64), so that a seed gives the same cases everywhere.

pub struct Random(u64);

impl Random {
    pub fn new(seed: u64) -> Random {
        Random(seed)
    }

    pub fn next(&mut self) -> u64 {
        self.0 = self.0.wrapping_add(0x9e37_79b9_7f4a_7c15);
        let mut z = self.0;
        z = (z ^ (z >> 30)).wrapping_mul(0xbf58_476d_1ce4_e5b9);
        z = (z ^ (z >> 27)).wrapping_mul(0x94d0_49bb_1331_11eb);
        z ^ (z >> 31)
    }

    /// A number below `bound`, which is not 0.
    pub fn below(&mut self, bound: usize) -> usize {
        (self.next() % bound as u64) as usize
    }

    /// True in `percent` of 100 calls.
    pub fn chance(&mut self, percent: usize) -> bool {
        self.below(100) < percent
    }

    pub fn pick<T: Copy>(&mut self, from: &[T]) -> T {
        from[self.below(from.len())]
    }

    /// A list of junk.
    pub fn junk(&mut self, length: usize) -> Vec<u32> {
        let mut list = vec![0; length];
        let start = self.next() as u32;
        for (i, x) in list.iter_mut().enumerate() {
            *x = start.wrapping_add(i as u32).wrapping_mul(0x9e37_79b1) | 1;
        }
        list
    }

    /// A count that no call reports.
    pub fn junk_count(&mut self) -> usize {
        (1 << 40) + self.below(1 << 40)
    }

    pub fn junk_bytes(&mut self, length: usize) -> Vec<u8> {
        self.junk(length).into_iter().map(|x| (x >> 8) as u8).collect()
    }
}
