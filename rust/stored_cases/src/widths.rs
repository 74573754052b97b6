//! Sample widths: those that compile takes and refuses, and matrices that tell them apart.

use cases::{filled, Matrix};

use crate::matrices::{five_zero_minus_one, matrices, no_rows, three_minus_three};

/// Both ends, those of older and newer detectors, and the one that no head states.
pub const WIDTHS: [u8; 5] = [8, 12, 16, 20, 24];

/// Widths that compile refuses, with 20.
pub const REFUSED_WIDTHS: [u8; 4] = [0, 7, 25, 255];

/// Small matrices of which each width of `WIDTHS` is stored: the marked widths, and sums so near a power of two that their width is not
/// that of other samples, moved.
pub fn small_banks() -> Vec<Matrix> {
    let exact: [&[i16]; 3] = [
        &[257, -257],
        &[4_097, -4_097],
        &[i16::MAX, i16::MAX, 3, i16::MIN, i16::MIN, -1],
    ];
    let mut all = vec![
        no_rows(),
        three_minus_three(),
        five_zero_minus_one(),
        filled(1, 1, || 0),
        filled(1, 1, || -1),
        filled(1, 2, || 1),
        filled(1, 8, || i16::MIN),
        filled(1, 8, || i16::MAX),
        Matrix::of_rows(&[&[-3, 5, 7, -1]]),
    ];
    all.extend(exact.map(|row| Matrix::of_rows(&[row])));
    all
}

/// Small matrices at each of these widths, and matrices of all sizes at one width each: from 8 to 24 and again, without 16.
pub fn banks_and_widths() -> Vec<(Matrix, u8)> {
    let mut all = Vec::new();
    for matrix in small_banks() {
        all.extend(WIDTHS.map(|width| (matrix.clone(), width)));
    }
    let others = (8..=24).filter(|&width| width != 16);
    all.extend(matrices().into_iter().zip(others.cycle()));
    all
}

/// The lowest and the highest sample of a width.
pub fn ends(width: u8) -> [i32; 2] {
    [-(1 << (width - 1)), (1 << (width - 1)) - 1]
}
