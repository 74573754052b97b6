//! The source of the cases: the Mersenne Twister MT19937 of Matsumoto and Nishimura. A key starts it as in their program, and a
//! number below a bound is drawn as by Python's module random, with which the stored cases were first chosen.

const COUNT: usize = 624;
const DISTANCE: usize = 397;

/// Numbers that follow from a key alone.
pub struct MersenneTwister {
    state: [u32; COUNT],
    next: usize,
}

impl MersenneTwister {
    /// From a key of at most 624 numbers.
    pub fn new(key: &[u32]) -> Self {
        let mut state = [19_650_218; COUNT];
        for index in 1..COUNT {
            let product = mixed(state[index - 1]).wrapping_mul(1_812_433_253);
            state[index] = product.wrapping_add(index as u32);
        }
        let mut index = 0;
        let numbers = (0..).zip(key).cycle();
        for (position, number) in numbers.take(COUNT) {
            index = following(&mut state, index);
            let product = mixed(state[index - 1]).wrapping_mul(1_664_525);
            let changed = (state[index] ^ product).wrapping_add(*number);
            state[index] = changed.wrapping_add(position);
        }
        for _ in 1..COUNT {
            index = following(&mut state, index);
            let product = mixed(state[index - 1]).wrapping_mul(1_566_083_941);
            state[index] = (state[index] ^ product).wrapping_sub(index as u32);
        }
        state[0] = 0x8000_0000;
        MersenneTwister { state, next: 0 }
    }

    fn number(&mut self) -> u32 {
        let index = self.next;
        self.next = (index + 1) % COUNT;
        let joined = (self.state[index] & 0x8000_0000) | (self.state[self.next] & 0x7FFF_FFFF);
        let twisted = (joined >> 1) ^ ((joined & 1) * 0x9908_B0DF);
        self.state[index] = self.state[(index + DISTANCE) % COUNT] ^ twisted;

        let mut number = self.state[index];
        number ^= number >> 11;
        number ^= (number << 7) & 0x9D2C_5680;
        number ^= (number << 15) & 0xEFC6_0000;
        number ^ (number >> 18)
    }

    /// A number below a bound: as many top bits as the bound has, drawn again until they are below it.
    fn below(&mut self, bound: u32) -> u32 {
        loop {
            let number = self.number() >> bound.leading_zeros();
            if number < bound {
                return number;
            }
        }
    }

    /// A number from `least` to `most`.
    pub fn between(&mut self, least: i32, most: i32) -> i32 {
        least + self.below((most - least) as u32 + 1) as i32
    }

    pub fn choose<T: Copy>(&mut self, choices: &[T]) -> T {
        choices[self.below(choices.len() as u32) as usize]
    }
}

fn mixed(number: u32) -> u32 {
    number ^ (number >> 30)
}

/// The index behind one; behind the last it is 1, and the last number becomes the first.
fn following(state: &mut [u32; COUNT], index: usize) -> usize {
    if index + 1 < COUNT {
        return index + 1;
    }
    state[0] = state[COUNT - 1];
    1
}

#[cfg(test)]
mod tests {
    use super::*;

    /// The authors' published output, mt19937ar.out: the first five numbers of their key, and the last of its thousand.
    #[test]
    fn published_numbers() {
        let mut twister = MersenneTwister::new(&[0x123, 0x234, 0x345, 0x456]);
        let numbers: Vec<u32> = (0..1000).map(|_| twister.number()).collect();
        let first = [
            1_067_595_299,
            955_945_823,
            477_289_528,
            4_107_218_783,
            4_228_976_476,
        ];
        assert_eq!(numbers[..5], first);
        assert_eq!(numbers[999], 3_460_025_646);
    }
}
