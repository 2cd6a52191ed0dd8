//! Numbers that look random and are the same in every run.

pub struct Random(u64);

impl Random {
    pub fn from_seed(seed: u64) -> Random {
        Random(seed)
    }

    /// SplitMix64.
    pub fn number(&mut self) -> u64 {
        self.0 = self.0.wrapping_add(0x9E37_79B9_7F4A_7C15);
        let mut mixed = self.0;
        mixed = (mixed ^ (mixed >> 30)).wrapping_mul(0xBF58_476D_1CE4_E5B9);
        mixed = (mixed ^ (mixed >> 27)).wrapping_mul(0x94D0_49BB_1331_11EB);
        mixed ^ (mixed >> 31)
    }

    pub fn below(&mut self, limit: u64) -> u64 {
        self.number() % limit
    }

    pub fn size_below(&mut self, limit: usize) -> usize {
        self.below(limit as u64) as usize
    }

    pub fn octet_below(&mut self, limit: u16) -> u8 {
        self.below(limit.into()) as u8
    }

    pub fn one_in(&mut self, times: u64) -> bool {
        self.below(times) == 0
    }

    pub fn pick<T: Copy>(&mut self, from: &[T]) -> T {
        from[self.size_below(from.len())]
    }

    pub fn octet(&mut self) -> u8 {
        self.number() as u8
    }

    pub fn octets(&mut self, length: usize) -> Vec<u8> {
        let mut octets = Vec::with_capacity(length + 8);
        while octets.len() < length {
            octets.extend_from_slice(&self.number().to_le_bytes());
        }
        octets.truncate(length);
        octets
    }

    pub fn numbers(&mut self, length: usize) -> Vec<u64> {
        (0..length).map(|_| self.number()).collect()
    }
}
