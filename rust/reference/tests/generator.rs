//! The generator's records, as a second program by another author writes them, and its refusals.

use std::collections::HashSet;

use cases::Matrix;
use reference::{generate, Refusal};

fn record(m: u8, n: u8, seed: u32) -> Vec<u8> {
    let mut buffer = [0xA5; 134];
    let written = generate(m, n, seed, &mut buffer).unwrap();
    assert!(buffer[written..].iter().all(|&byte| byte == 0xA5));
    buffer[..written].to_vec()
}

#[test]
fn known_coefficients() {
    let row = |n, seed| record(1, n, seed);
    let of_row = |coefficients: &[i16]| Matrix::of_rows(&[coefficients]).record();
    assert_eq!(row(1, 0), of_row(&[-25_034]));
    assert_eq!(row(2, u32::MAX), of_row(&[-25_034, 15_470]));
    assert_eq!(row(3, 305_419_896), of_row(&[-20_374, 20_131, -4_901]));
    // The first state is 0, then 2^32 − 1, 2^31 − 1 and 2^31: the seeds are 9E3779B9 less.
    assert_eq!(row(2, 0x61C8_8647), of_row(&[0, -25_034]));
    assert_eq!(row(2, 0x61C8_8646), of_row(&[-2, -25_034]));
    assert_eq!(row(2, 0xE1C8_8646), of_row(&[i16::MAX, 7_735]));
    assert_eq!(row(2, 0xE1C8_8647), of_row(&[i16::MIN + 1, 7_735]));
}

/// Rows come one after another, as in every matrix record.
#[test]
fn coefficients_row_by_row() {
    let rows: [&[i16]; 2] = [&[-25_034, 15_470, -9_561], &[30_941, 5_909, -19_123]];
    assert_eq!(record(2, 3, 0), Matrix::of_rows(&rows).record());
}

/// Neighbouring seeds differ by little, and the lower 16 bits are dropped: the first thousand seeds have only two banks.
#[test]
fn neighbouring_seeds_give_equal_banks() {
    let banks: HashSet<Vec<u8>> = (0..1000).map(|seed| record(8, 8, seed)).collect();
    assert_eq!(banks, HashSet::from([record(8, 8, 0), record(8, 8, 979)]));
    assert_eq!(record(8, 8, 978), record(8, 8, 0));
    assert_ne!(record(8, 8, 979), record(8, 8, 0));
}

/// 225 steps of the spread seeds come to 2^32 − 121, so seeds 225 apart are near again.
#[test]
fn spread_seeds_give_some_equal_banks() {
    let seeds = (0..1000).map(|k: u32| k.wrapping_mul(19_088_743));
    let banks: HashSet<Vec<u8>> = seeds.map(|seed| record(8, 8, seed)).collect();
    assert_eq!(banks.len(), 315);
}

#[test]
fn refusals() {
    let refused = |number| Err(Refusal { number, place: 0 });
    let mut buffer = [0xA5; 17];
    for (m, n) in [(0, 1), (1, 0), (9, 1), (1, 9), (255, 255)] {
        assert_eq!(generate(m, n, 0, &mut buffer), refused(4));
        assert_eq!(generate(m, n, 0, &mut []), refused(4));
    }
    assert_eq!(generate(2, 3, 0, &mut buffer), refused(6));
    assert_eq!(buffer, [0xA5; 17]);
}
