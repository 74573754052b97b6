//! Why a record was declined.

/// A number of document 01's table, and the place that goes with it.
#[derive(Clone, Copy, Debug, PartialEq, Eq)]
pub struct Refusal {
    pub number: u8,
    pub place: usize,
}

/// The number and place that a call returns: 0 at place 0 where it is accepted.
pub fn returned<T>(answer: &Result<T, Refusal>) -> (u8, usize) {
    match answer {
        Ok(_) => (0, 0),
        Err(refusal) => (refusal.number, refusal.place),
    }
}

/// Refuses with `number` at `place` unless `condition` holds.
pub(crate) fn require(condition: bool, number: u8, place: usize) -> Result<(), Refusal> {
    if condition {
        Ok(())
    } else {
        Err(Refusal { number, place })
    }
}
