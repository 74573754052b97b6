//! Occurrences that the steps of elimination touch, on the banks whose instructions callgrind counts.

use bench::{seeds, Input};

use crate::programs::COUNTED;

/// The mean over the banks of a size and coefficient size.
pub fn touched(size: usize, bits: u32) -> f64 {
    let of_bank = |seed| Input::of_seed(seed, size, size, bits, 0).touched();
    let sum: usize = seeds(COUNTED).map(of_bank).sum();
    sum as f64 / COUNTED as f64
}
