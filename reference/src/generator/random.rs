//! Numbers that look random and follow from a seed (splitmix64).

/// The state of the sequence.
pub struct Random {
    state: u64,
}

impl Random {
    pub fn from_seed(seed: u64) -> Random {
        Random { state: seed }
    }

    /// The next 64 bits.
    pub fn bits(&mut self) -> u64 {
        self.state = self.state.wrapping_add(0x9e37_79b9_7f4a_7c15);
        let mut mixed = self.state;
        mixed = (mixed ^ mixed >> 30).wrapping_mul(0xbf58_476d_1ce4_e5b9);
        mixed = (mixed ^ mixed >> 27).wrapping_mul(0x94d0_49bb_1331_11eb);
        mixed ^ mixed >> 31
    }

    /// A number from `least` to `most`, both possible.
    pub fn between(&mut self, least: u64, most: u64) -> u64 {
        let span = u128::from(most.saturating_sub(least)) + 1;
        least + (u128::from(self.bits()) % span) as u64
    }

    /// A number from `least` to `most`, often at one of its ends or beside it.
    pub fn edge(&mut self, least: u64, most: u64) -> u64 {
        match self.between(0, 7) {
            0 => least,
            1 => most,
            2 => least.saturating_add(1).min(most),
            3 => most.saturating_sub(1).max(least),
            _ => self.between(least, most),
        }
    }

    pub fn between32(&mut self, least: u32, most: u32) -> u32 {
        self.between(u64::from(least), u64::from(most)) as u32
    }

    pub fn edge32(&mut self, least: u32, most: u32) -> u32 {
        self.edge(u64::from(least), u64::from(most)) as u32
    }

    /// An index below a length; 0 where the length is 0.
    pub fn index(&mut self, length: usize) -> usize {
        self.between(0, (length as u64).saturating_sub(1)) as usize
    }

    /// True in about `percent` of a hundred.
    pub fn chance(&mut self, percent: u64) -> bool {
        self.between(0, 99) < percent
    }

    /// One of some things.
    pub fn pick<T: Copy, const N: usize>(&mut self, things: [T; N]) -> T {
        things[self.index(N)]
    }
}
