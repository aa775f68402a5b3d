//! A small deterministic generator (splitmix64).

pub struct Random {
    state: u64,
}

impl Random {
    /// A generator for a seed and one sort of cases.
    pub fn new(seed: u64, sort: char) -> Random {
        let mut random = Random { state: seed.wrapping_mul(0x2545_F491_4F6C_DD1D) ^ ((sort as u64) << 40) };
        random.next();
        random.next();
        random
    }

    /// The next number.
    pub fn next(&mut self) -> u64 {
        self.state = self.state.wrapping_add(0x9E37_79B9_7F4A_7C15);
        let mut z = self.state;
        z = (z ^ (z >> 30)).wrapping_mul(0xBF58_476D_1CE4_E5B9);
        z = (z ^ (z >> 27)).wrapping_mul(0x94D0_49BB_1331_11EB);
        z ^ (z >> 31)
    }

    /// A number below n.
    pub fn below(&mut self, n: u64) -> u64 {
        (self.next() >> 16) % n
    }

    /// A number from low to high, both counted.
    pub fn between(&mut self, low: u64, high: u64) -> u64 {
        low + self.below(high - low + 1)
    }

    /// The same as a byte.
    pub fn within(&mut self, low: u8, high: u8) -> u8 {
        self.between(low as u64, high as u64) as u8
    }

    /// True once in n times.
    pub fn once_in(&mut self, n: u64) -> bool {
        self.below(n) == 0
    }

    /// Any byte.
    pub fn byte(&mut self) -> u8 {
        self.below(256) as u8
    }

    /// Any so many bytes.
    pub fn bytes(&mut self, count: usize) -> Vec<u8> {
        (0..count).map(|_| self.byte()).collect()
    }

    /// One of a list.
    pub fn pick<T: Copy>(&mut self, list: &[T]) -> T {
        list[self.below(list.len() as u64) as usize]
    }

    /// A byte with exactly so many ones.
    pub fn ones(&mut self, count: u32) -> u8 {
        loop {
            let byte = self.byte();
            if byte.count_ones() == count {
                return byte;
            }
        }
    }
}
