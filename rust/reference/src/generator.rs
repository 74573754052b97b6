//! Generator: the matrix record that a seed names, to burn boards in with.

use crate::matrix::{is_size, record_length, START};
use crate::refusal::{require, Refusal};

/// What the state grows by for each coefficient.
const GROWTH: u32 = 0x9E37_79B9;

/// Writes the matrix record of m, n and a seed into the first bytes of `buffer`, and returns how many these are.
pub fn generate(m: u8, n: u8, seed: u32, buffer: &mut [u8]) -> Result<usize, Refusal> {
    let (rows, columns) = (usize::from(m), usize::from(n));
    require(is_size(rows) && is_size(columns), 4, 0)?;
    let length = record_length(rows, columns);
    require(buffer.len() >= length, 6, 0)?;

    let (start, coefficients) = buffer[..length].split_at_mut(START);
    let [low, high] = (length as u16).to_le_bytes();
    start.copy_from_slice(&[low, high, 1, 0, m, n]);
    let mut state = seed;
    for coefficient in coefficients.chunks_exact_mut(2) {
        state = state.wrapping_add(GROWTH);
        let upper = (state ^ (state >> 15)) >> 16;
        coefficient.copy_from_slice(&(upper as u16).to_le_bytes());
    }
    Ok(length)
}
