//! The source of the cases: SplitMix64.

/// Numbers that follow from a seed alone.
pub struct Random {
    state: u64,
}

impl Random {
    pub fn new(seed: u64) -> Self {
        Random { state: seed }
    }

    pub fn number(&mut self) -> u64 {
        self.state = self.state.wrapping_add(0x9E37_79B9_7F4A_7C15);
        let mut z = self.state;
        z = (z ^ (z >> 30)).wrapping_mul(0xBF58_476D_1CE4_E5B9);
        z = (z ^ (z >> 27)).wrapping_mul(0x94D0_49BB_1331_11EB);
        z ^ (z >> 31)
    }

    /// A number from `least` to `most`.
    pub fn between(&mut self, least: usize, most: usize) -> usize {
        let choices = (most - least) as u64 + 1;
        least + (self.number() % choices) as usize
    }

    /// Holds once in `times`, on average.
    pub fn once_in(&mut self, times: usize) -> bool {
        self.between(1, times) == 1
    }

    pub fn choose<T: Copy>(&mut self, choices: &[T]) -> T {
        choices[self.between(0, choices.len() - 1)]
    }

    pub fn byte(&mut self) -> u8 {
        self.number() as u8
    }

    pub fn bytes(&mut self, count: usize) -> Vec<u8> {
        (0..count).map(|_| self.byte()).collect()
    }

    /// A two's complement number of so many bits, 1 to 16.
    pub fn coefficient(&mut self, bits: u32) -> i16 {
        (self.number() as i16) >> (16 - bits)
    }

    /// A width that samples may have: 16, or any of 8 to 24 bits.
    pub fn sample_width(&mut self) -> u8 {
        if self.once_in(2) {
            16
        } else {
            self.between(8, 24) as u8
        }
    }

    /// A width for compile: one that samples may have, or in one case of eight any.
    pub fn any_width(&mut self) -> u8 {
        match self.between(0, 15) {
            0 => self.choose(&[0, 7, 25, 255]),
            1 => self.byte(),
            _ => self.sample_width(),
        }
    }

    /// A sample of so many bits: any, or one of the ends.
    pub fn sample(&mut self, width: u8) -> i32 {
        let above = 32 - u32::from(width);
        match self.between(0, 3) {
            0 => i32::MIN >> above,
            1 => i32::MAX >> above,
            _ => (self.number() as i32) << above >> above,
        }
    }

    pub fn samples(&mut self, width: u8, count: usize) -> Vec<i32> {
        (0..count).map(|_| self.sample(width)).collect()
    }

    /// Samples, of which in one vector of three some need not fit their width.
    pub fn near_samples(&mut self, width: u8, count: usize) -> Vec<i32> {
        let mut samples = self.samples(width, count);
        if count > 0 && self.once_in(3) {
            for _ in 0..self.between(1, 3) {
                samples[self.between(0, count - 1)] = self.near_sample(width);
            }
        }
        samples
    }

    /// A number where a sample of so many bits is due: one past its ends, of more bits, or any.
    fn near_sample(&mut self, width: u8) -> i32 {
        let above = 32 - u32::from(width);
        match self.between(0, 4) {
            0 => (i32::MIN >> above) - 1,
            1 => (i32::MAX >> above) + 1,
            2 => {
                let more = self.between(usize::from(width), 31) as u8 + 1;
                self.sample(more)
            }
            3 => self.choose(&[i32::MIN, i32::MAX]),
            _ => self.number() as i32,
        }
    }
}
