//! Pseudo-random inputs for tests and comparisons. The start is fixed, so that a disagreement can be
//! met again.

pub mod states;
pub mod texts;

/// SplitMix64: a counter stepped by the golden ratio and scrambled.
pub struct Random(u64);

impl Random {
    pub fn new(seed: u64) -> Random {
        Random(seed)
    }

    pub fn draw(&mut self) -> u64 {
        self.0 = self.0.wrapping_add(0x9E37_79B9_7F4A_7C15);
        let mut z = self.0;
        z = (z ^ (z >> 30)).wrapping_mul(0xBF58_476D_1CE4_E5B9);
        z = (z ^ (z >> 27)).wrapping_mul(0x94D0_49BB_1331_11EB);
        z ^ (z >> 31)
    }

    /// One that gives what this one is about to give, and leaves it where it is.
    pub fn ahead(&self) -> Random {
        Random(self.0)
    }

    pub fn below(&mut self, bound: u64) -> u64 {
        self.draw() % bound
    }

    pub fn byte(&mut self) -> u8 {
        self.draw() as u8
    }

    pub fn bytes(&mut self, count: usize) -> Vec<u8> {
        (0..count).map(|_| self.byte()).collect()
    }

    pub fn pick<T: Copy>(&mut self, from: &[T]) -> T {
        from[self.below(from.len() as u64) as usize]
    }

    /// A number of the range, one time in four one of its ends or their neighbours.
    pub fn within(&mut self, low: u64, high: u64) -> u64 {
        match self.below(16) {
            0 => low,
            1 => high,
            2 => (low + 1).min(high),
            3 => high.saturating_sub(1).max(low),
            _ => low + self.below(high - low + 1),
        }
    }

    /// From -1 to 1.
    pub fn fraction(&mut self) -> f64 {
        (self.draw() >> 11) as f64 / (1_u64 << 52) as f64 - 1.0
    }

    /// An eleven-bit floating point word of the table of ranges, with an exponent of at most this.
    pub fn float_word(&mut self, most_exponent: u64) -> u16 {
        let sign = self.below(2);
        let exponent = self.within(0, most_exponent);
        let mantissa = self.within(32, 63);
        (sign << 10 | exponent << 6 | mantissa) as u16
    }
}

#[cfg(test)]
mod tests {
    use super::*;

    /// The first numbers from 0 that the published generator gives.
    #[test]
    fn it_is_splitmix64() {
        let mut random = Random::new(0);
        let first = [random.draw(), random.draw()];
        assert_eq!(first, [0xE220_A839_7B1D_CDAF, 0x6E78_9E6A_A1B9_65F4]);
    }

    #[test]
    fn ranges_are_kept_and_their_ends_are_met() {
        let mut random = Random::new(1);
        let drawn: Vec<u64> = (0..1_000).map(|_| random.within(5, 90)).collect();
        assert_eq!(drawn.iter().min(), Some(&5));
        assert_eq!(drawn.iter().max(), Some(&90));
    }
}
