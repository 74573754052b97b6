//! Digits and terms: canonic signed digits as two masks.

/// Digits −1, 0, 1 at the positions 0 to 15: bit p of `plus` is digit 1 at position p, bit p of `minus` digit −1.
///
/// A row is kept as the digits of each symbol, so a term is one nonzero digit: its position is the term's exponent.
#[derive(Clone, Copy, Debug, Default, PartialEq, Eq)]
pub(crate) struct Digits {
    pub plus: u16,
    pub minus: u16,
}

impl Digits {
    /// The canonic signed digits of a coefficient.
    pub fn canonic(coefficient: i16) -> Self {
        let mut digits = Digits::default();
        let mut rest = i32::from(coefficient);
        for position in 0..16 {
            // An odd rest takes the digit that leaves a multiple of four, so that the next digit is 0.
            match rest & 3 {
                1 => {
                    digits.plus |= 1 << position;
                    rest -= 1;
                }
                3 => {
                    digits.minus |= 1 << position;
                    rest += 1;
                }
                _ => {}
            }
            rest >>= 1;
        }
        digits
    }

    pub fn nonzero(self) -> u16 {
        self.plus | self.minus
    }

    /// The digits from position `by` on, as digits from 0 on.
    pub fn down(self, by: u8) -> Self {
        Digits {
            plus: self.plus >> by,
            minus: self.minus >> by,
        }
    }

    /// The digits at the positions of a mask.
    pub fn at(self, positions: u16) -> Self {
        Digits {
            plus: self.plus & positions,
            minus: self.minus & positions,
        }
    }

    /// The nonzero digits in ascending order: position, and whether it is −1.
    pub fn terms(self) -> impl Iterator<Item = (u8, bool)> {
        positions(self.nonzero()).map(move |p| (p, self.minus >> p & 1 == 1))
    }
}

/// The positions of the bits of a mask, in ascending order.
fn positions(mut mask: u16) -> impl Iterator<Item = u8> {
    std::iter::from_fn(move || {
        let lowest = mask.trailing_zeros() as u8;
        mask &= mask.wrapping_sub(1);
        (lowest < 16).then_some(lowest)
    })
}

#[cfg(test)]
mod tests {
    use super::*;

    fn listed(coefficient: i16) -> Vec<(u8, bool)> {
        Digits::canonic(coefficient).terms().collect()
    }

    #[test]
    fn marked_coefficients() {
        assert_eq!(listed(0), []);
        assert_eq!(listed(6), [(1, true), (3, false)]);
        assert_eq!(listed(23), [(0, true), (3, true), (5, false)]);
        assert_eq!(listed(32_767), [(0, true), (15, false)]);
        assert_eq!(listed(-32_768), [(15, true)]);
        assert_eq!(listed(21_845).len(), 8);
    }

    #[test]
    fn every_coefficient_has_canonic_digits() {
        for coefficient in i16::MIN..=i16::MAX {
            let digits = Digits::canonic(coefficient);
            let nonzero = digits.nonzero();
            assert_eq!(digits.plus & digits.minus, 0);
            assert_eq!(nonzero & (nonzero >> 1), 0, "neighbours of {coefficient}");
            assert_eq!(
                i32::from(digits.plus) - i32::from(digits.minus),
                i32::from(coefficient)
            );
            assert!(nonzero.count_ones() <= 8);
        }
    }
}
