//! Numbers that look random and follow from a seed: the generator SplitMix64.

pub struct Draw {
    state: u64,
}

impl Draw {
    /// One sequence for each seed and kind.
    pub fn new(seed: u64, kind: &str) -> Draw {
        let mut draw = Draw { state: seed };
        for byte in kind.bytes() {
            draw.state = draw.word() ^ u64::from(byte);
        }
        draw
    }

    pub fn word(&mut self) -> u64 {
        self.state = self.state.wrapping_add(0x9e37_79b9_7f4a_7c15);
        let mut z = self.state;
        z = (z ^ (z >> 30)).wrapping_mul(0xbf58_476d_1ce4_e5b9);
        z = (z ^ (z >> 27)).wrapping_mul(0x94d0_49bb_1331_11eb);
        z ^ (z >> 31)
    }

    /// A number below n, which is not 0.
    pub fn below(&mut self, n: u64) -> u64 {
        self.word() % n
    }

    /// A number of 0 to 64 bits, each width as likely as another.
    pub fn any_width(&mut self) -> u64 {
        let bits = self.below(65) as u32;
        self.word().checked_shr(64 - bits).unwrap_or(0)
    }

    /// A number of up to so many bits; often 0, 1 or the largest.
    pub fn of_width(&mut self, bits: u8) -> u64 {
        let largest = u64::MAX.checked_shr(64 - u32::from(bits)).unwrap_or(0);
        match self.below(8) {
            0 => 0,
            1 => largest,
            2 => largest.min(1),
            _ => self.word() & largest,
        }
    }

    pub fn one_of(&mut self, words: &[u64]) -> u64 {
        words[self.below(words.len() as u64) as usize]
    }
}

/// Some of the cases, from all over the list, so that a small sample has every sort of them: half as many
/// as are asked for, or all where there are no more than that.
pub fn spread<T>(cases: Vec<T>, count: u64) -> impl Iterator<Item = T> {
    let length = cases.len() as u64;
    let wanted = length.min(count.div_ceil(2));
    cases
        .into_iter()
        .zip(0..)
        .filter(move |(_, i)| i * wanted / length < (i + 1) * wanted / length)
        .map(|(case, _)| case)
}
