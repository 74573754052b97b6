//! Samples: two's complement numbers of 8 to 24 bits.

use crate::refusal::Refusal;

/// The width that no head states: a head of kind 2 is of that width, and one of kind 6 states another.
const UNSTATED: u8 = 16;

/// The samples of a detector, all those of one width.
#[derive(Clone, Copy, Debug, PartialEq, Eq)]
pub(crate) struct Samples {
    width: u8,
}

impl Samples {
    /// Those of so many bits, if a detector may have them.
    pub fn of_width(width: u8) -> Option<Self> {
        (8..=24).contains(&width).then_some(Samples { width })
    }

    /// Those of a head that states so many bits, or none.
    pub fn of_head(stated: Option<u8>) -> Option<Self> {
        match stated {
            None => Samples::of_width(UNSTATED),
            Some(UNSTATED) => None,
            Some(width) => Samples::of_width(width),
        }
    }

    /// The width that a head states for them.
    pub fn stated(self) -> Option<u8> {
        (self.width != UNSTATED).then_some(self.width)
    }

    pub fn width(self) -> u8 {
        self.width
    }

    pub fn lowest(self) -> i64 {
        -(1 << (self.width - 1))
    }

    pub fn highest(self) -> i64 {
        (1 << (self.width - 1)) - 1
    }

    /// Refuses with 21, at the lowest index, a sample that is none of these.
    pub fn require_all(self, samples: &[i32]) -> Result<(), Refusal> {
        let fit = self.lowest()..=self.highest();
        match samples.iter().position(|&x| !fit.contains(&x.into())) {
            None => Ok(()),
            Some(place) => Err(Refusal { number: 21, place }),
        }
    }
}
