//! Lists of vectors, one a clock: what a vector costs in clock, beside run.

use bench::Call;

use crate::times::{Banks, Times};

/// Vectors of the lists.
pub const LISTS: [usize; 5] = [1, 10, 100, 1_000, 10_000];

/// Figures for lists of one length.
pub struct List {
    pub vectors: usize,
    /// Of clock, for each vector.
    pub clock: Times,
    /// The verified run's time to the verified clock's for each vector.
    pub run_to_clock: f64,
}

impl List {
    /// From banks whose times of run and of clock on such a list were measured.
    pub fn of(vectors: usize, banks: &Banks) -> Self {
        let call = Call::Clock(vectors);
        let (times, count) = (banks.times(call), vectors as f64);
        List {
            vectors,
            clock: Times {
                verified: times.verified / count,
                independent: times.independent / count,
                ratio: times.ratio,
            },
            run_to_clock: banks.verified_ratio(Call::Run, call) * count,
        }
    }
}
