//! Numbers for tests and measurements, the same ones in every run.

/// splitmix64.
pub struct Random(pub u64);

impl Random {
    pub fn draw(&mut self) -> u64 {
        self.0 = self.0.wrapping_add(0x9E37_79B9_7F4A_7C15);
        let mut z = self.0;
        z = (z ^ (z >> 30)).wrapping_mul(0xBF58_476D_1CE4_E5B9);
        z = (z ^ (z >> 27)).wrapping_mul(0x94D0_49BB_1331_11EB);
        z ^ (z >> 31)
    }

    pub fn below(&mut self, limit: usize) -> usize {
        (self.draw() % limit as u64) as usize
    }

    /// A number below 2^width.
    pub fn of_width(&mut self, width: u32) -> u32 {
        (self.draw() % (1 << width)) as u32
    }

    /// A random width, then a random number below 2^width.
    pub fn skewed(&mut self) -> u32 {
        let width = self.below(33) as u32;
        self.of_width(width)
    }

    /// A number at or near the ends or the middle.
    pub fn extreme(&mut self) -> u32 {
        let numbers = [0, 1, 2, (1 << 31) - 1, 1 << 31, u32::MAX - 1, u32::MAX];
        numbers[self.below(numbers.len())]
    }

    pub fn bytes(&mut self, length: usize) -> Vec<u8> {
        (0..length).map(|_| self.draw() as u8).collect()
    }

    /// Bytes where a bit is 1 in `ones` of 16 draws, so that chains get long or stay short.
    pub fn dense_bytes(&mut self, length: usize, ones: usize) -> Vec<u8> {
        let mut byte = || (0..8).fold(0, |byte, _| byte << 1 | u8::from(self.below(16) < ones));
        (0..length).map(|_| byte()).collect()
    }
}
