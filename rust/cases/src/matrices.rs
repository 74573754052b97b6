//! Matrices: all sizes, all coefficient sizes, sparse and dense, extremes, rows that share much.

use crate::random::Random;

/// A matrix as its rows; one without rows has no columns.
#[derive(Clone, Debug, PartialEq, Eq)]
pub struct Matrix {
    pub rows: Vec<Vec<i16>>,
}

impl Matrix {
    pub fn of_rows(rows: &[&[i16]]) -> Self {
        Matrix {
            rows: rows.iter().map(|row| row.to_vec()).collect(),
        }
    }

    pub fn m(&self) -> usize {
        self.rows.len()
    }

    pub fn n(&self) -> usize {
        self.rows.first().map_or(0, Vec::len)
    }

    /// The matrix record: no bytes where there are no rows.
    pub fn record(&self) -> Vec<u8> {
        let (m, n) = (self.m(), self.n());
        let mut bytes = Vec::new();
        if m == 0 {
            return bytes;
        }
        bytes.extend((6 + 2 * m as u16 * n as u16).to_le_bytes());
        bytes.extend(1u16.to_le_bytes());
        bytes.extend([m as u8, n as u8]);
        for coefficient in self.rows.iter().flatten() {
            bytes.extend(coefficient.to_le_bytes());
        }
        bytes
    }

    /// Row times vector, for each row.
    pub fn times(&self, samples: &[i32]) -> Vec<i64> {
        let product = |(&c, &x): (&i16, &i32)| i64::from(c) * i64::from(x);
        let row_times = |row: &Vec<i16>| row.iter().zip(samples).map(product).sum();
        self.rows.iter().map(row_times).collect()
    }
}

/// A matrix whose coefficients are drawn row by row.
pub fn filled(m: usize, n: usize, mut coefficient: impl FnMut() -> i16) -> Matrix {
    let rows = (0..m).map(|_| (0..n).map(|_| coefficient()).collect());
    Matrix {
        rows: rows.collect(),
    }
}

/// A bank of random coefficients of so many bits.
pub fn bank(random: &mut Random, m: usize, n: usize, bits: u32) -> Matrix {
    filled(m, n, || random.coefficient(bits))
}

const EXTREMES: [i16; 12] = [
    i16::MIN,
    i16::MIN + 1,
    i16::MAX,
    21_845,
    -21_846,
    10_923,
    1_365,
    85,
    0,
    1,
    -1,
    16_384,
];

/// A matrix as `any_matrix` makes it, or now and then the one without rows.
pub fn any_bank(random: &mut Random, most_m: usize, most_n: usize) -> Matrix {
    if random.once_in(20) {
        Matrix::of_rows(&[])
    } else {
        any_matrix(random, most_m, most_n)
    }
}

/// A matrix of 1 to m rows and 1 to n columns, of a kind that the random numbers choose.
pub fn any_matrix(random: &mut Random, most_m: usize, most_n: usize) -> Matrix {
    let (m, n) = (random.between(1, most_m), random.between(1, most_n));
    let bits = random.between(1, 16) as u32;
    match random.between(0, 9) {
        0 => filled(m, n, || random.choose(&EXTREMES)),
        1 => sparse(random, m, n, bits),
        2 => filled(m, n, || {
            let power = 1i16 << random.between(0, 14);
            random.choose(&[power, -power])
        }),
        3 => {
            let coefficient = random.coefficient(16);
            filled(m, n, || coefficient)
        }
        4 => multiples(random, m, n),
        6 => filled(m, n, || every_other_digit(random)),
        5 => {
            let few = [random.coefficient(bits), random.coefficient(bits), 0];
            filled(m, n, || random.choose(&few))
        }
        _ => bank(random, m, n, bits),
    }
}

/// Mostly zeros.
fn sparse(random: &mut Random, m: usize, n: usize, bits: u32) -> Matrix {
    let zeros = random.between(2, 6);
    filled(m, n, || {
        let coefficient = random.coefficient(bits);
        if random.once_in(zeros) {
            coefficient
        } else {
            0
        }
    })
}

/// Digits −1, 0 and 1 at even positions alone: many pairs of one symbol overlap.
fn every_other_digit(random: &mut Random) -> i16 {
    let digits = (0..8).map(|i| random.choose(&[-1, 0, 1, 1]) << (2 * i));
    digits.sum()
}

/// Each row is the first one shifted, and perhaps negated.
fn multiples(random: &mut Random, m: usize, n: usize) -> Matrix {
    let first: Vec<i16> = (0..n).map(|_| random.coefficient(9)).collect();
    let row = |_| {
        let factor = random.choose(&[1, -1]) << random.between(0, 6);
        first.iter().map(|c| c * factor).collect()
    };
    Matrix {
        rows: (0..m).map(row).collect(),
    }
}
