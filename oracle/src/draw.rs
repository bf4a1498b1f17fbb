//! The numbers that made cases are drawn from: xorshift64*, whose state is never 0.

pub struct Draw {
    state: u64,
}

impl Draw {
    /// The seed goes through the mix of splitmix64, so that the draws of neighbouring seeds differ.
    pub fn from_seed(seed: u64) -> Self {
        let mut mixed = seed.wrapping_add(0x9E37_79B9_7F4A_7C15);
        mixed = (mixed ^ (mixed >> 30)).wrapping_mul(0xBF58_476D_1CE4_E5B9);
        mixed = (mixed ^ (mixed >> 27)).wrapping_mul(0x94D0_49BB_1331_11EB);
        Self { state: (mixed ^ (mixed >> 31)).max(1) }
    }

    /// Any number of 32 bits: the upper half, which is the better mixed.
    pub fn word(&mut self) -> u32 {
        self.state ^= self.state >> 12;
        self.state ^= self.state << 25;
        self.state ^= self.state >> 27;
        (self.state.wrapping_mul(0x2545_F491_4F6C_DD1D) >> 32) as u32
    }

    pub fn octet(&mut self) -> u8 {
        (self.word() >> 24) as u8
    }

    pub fn octets(&mut self, count: usize) -> Vec<u8> {
        (0..count).map(|_| self.octet()).collect()
    }

    /// An octet from the lowest up: the lowest itself, any, or 255.
    pub fn octet_from(&mut self, lowest: u8) -> u8 {
        let above = self.below(256 - usize::from(lowest)) as u8;
        self.among([lowest, lowest + above, 255])
    }

    /// A number from 0 up to the limit less 1; 0 under the limit 0.
    pub fn below(&mut self, limit: usize) -> usize {
        ((u64::from(self.word()) * limit as u64) >> 32) as usize
    }

    /// A number from 1 to the last; 1 where the last is 0.
    pub fn number_to(&mut self, last: u16) -> u16 {
        self.below(usize::from(last)) as u16 + 1
    }

    pub fn one_in(&mut self, count: usize) -> bool {
        self.below(count) == 0
    }

    pub fn among<T: Copy, const COUNT: usize>(&mut self, choices: [T; COUNT]) -> T {
        choices[self.below(COUNT)]
    }

    /// A place in a row of so many: the first, the last, the middle or any; 0 in an empty row.
    pub fn place(&mut self, count: usize) -> usize {
        match self.below(4) {
            0 => 0,
            1 => count.saturating_sub(1),
            2 => count / 2,
            _ => self.below(count),
        }
    }
}
