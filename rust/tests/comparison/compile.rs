//! Compile: matrices of all kinds, samples of all widths, buffers of all lengths, damaged matrix records; and what becomes of the
//! netlist.

use cases::{any_bank, any_matrix, bank, damage_matrix, each, Matrix, Random};

use crate::both::Both;

/// The bytes that suffice for every netlist.
const ROOM: usize = zaatarloft::NETLIST_BYTES;

/// The length of a matrix's netlist.
fn netlist_length(matrix: &Matrix, width: u8) -> usize {
    let compiled = reference::compile(&matrix.record(), width, &mut [0; ROOM]);
    compiled.unwrap().written
}

/// One of the rows; no coefficients where there are no rows.
fn any_row<'a>(random: &mut Random, matrix: &'a Matrix) -> &'a [i16] {
    match matrix.m() {
        0 => &[],
        m => &matrix.rows[random.between(0, m - 1)],
    }
}

/// Compiles for samples of so many bits, then reads, checks and runs what was written; each output must be row times vector.
fn compile_and_use(both: &mut Both, random: &mut Random, matrix: &Matrix, width: u8) {
    let room = netlist_length(matrix, width) + random.between(0, 40);
    let old = random.bytes(room);
    let netlist = both.compile(&matrix.record(), width, &old).unwrap();
    let read = both.read(&netlist).unwrap();
    assert_eq!(usize::from(read.m), matrix.m());
    assert_eq!(usize::from(read.n), matrix.n());
    assert_eq!(both.sample_width(&netlist), Some(width));
    assert!(both.check(&matrix.record(), &netlist));

    let row = any_row(random, matrix);
    let end = 1 << (width - 1);
    let steep = |sign: bool| move |&c: &i16| if (c < 0) == sign { -end } else { end - 1 };
    let any = random.samples(width, row.len());
    let highest = row.iter().map(steep(true)).collect();
    let lowest = row.iter().map(steep(false)).collect();
    for samples in [any, highest, lowest] {
        let old: Vec<i64> = row_numbers(random, matrix.m());
        let outputs = both.run(&netlist, &samples, &old).unwrap();
        assert_eq!(outputs, matrix.times(&samples));
    }
}

fn row_numbers(random: &mut Random, count: usize) -> Vec<i64> {
    (0..count).map(|_| random.number() as i64).collect()
}

#[test]
fn every_coefficient_alone() {
    let mut both = Both::default();
    let mut random = Random::new(0);
    for coefficient in i16::MIN..=i16::MAX {
        let matrix = Matrix {
            rows: vec![vec![coefficient]],
        };
        let width = random.sample_width();
        compile_and_use(&mut both, &mut random, &matrix, width);
    }
    both.assert_compile(&[0], 65_536);
}

#[test]
fn matrices_of_all_kinds() {
    let mut both = Both::default();
    each(100_000, 8_000, |random| {
        let (matrix, width) = (any_matrix(random, 8, 8), random.sample_width());
        compile_and_use(&mut both, random, &matrix, width);
    });
    both.assert_compile(&[0], 8_000);
}

#[test]
fn small_matrices() {
    let mut both = Both::default();
    each(200_000, 30_000, |random| {
        let (matrix, width) = (any_bank(random, 3, 3), random.sample_width());
        compile_and_use(&mut both, random, &matrix, width);
    });
    both.assert_compile(&[0], 30_000);
}

#[test]
fn largest_banks() {
    let mut both = Both::default();
    each(300_000, 300, |random| {
        let bits = random.choose(&[8, 12, 16]);
        let (matrix, width) = (bank(random, 8, 8, bits), random.sample_width());
        compile_and_use(&mut both, random, &matrix, width);
    });
    both.assert_compile(&[0], 300);
}

/// The rows with the most terms, and rows that nothing or everything shares, for samples of every width.
#[test]
fn extreme_banks() {
    let mut both = Both::default();
    let mut random = Random::new(1);
    for coefficient in [
        0,
        1,
        -1,
        21_845,
        -21_846,
        10_923,
        i16::MAX,
        i16::MIN,
        85,
        1_365,
    ] {
        for (m, n) in [(1, 8), (8, 1), (8, 8)] {
            let matrix = Matrix {
                rows: vec![vec![coefficient; n]; m],
            };
            for width in 8..=24 {
                compile_and_use(&mut both, &mut random, &matrix, width);
            }
        }
    }
    both.assert_compile(&[0], 17 * 30);
}

/// Every number as a width, with matrices and records of all kinds, and with buffers that are too short too: 20 comes first.
#[test]
fn every_width() {
    let mut both = Both::default();
    each(700_000, 40, |random| {
        for width in 0..=255 {
            let (matrix, other) = (any_bank(random, 4, 4), any_bank(random, 4, 4));
            let damaged = damage_matrix(random, &matrix.record(), &other.record());
            for record in [matrix.record(), damaged, vec![]] {
                let room = random.choose(&[0, 15, 16, 17, 40, 100, ROOM]);
                let old = random.bytes(room);
                both.compile(&record, width, &old);
            }
        }
    });
    both.assert_compile(&[0, 1, 2, 3, 4, 5, 6, 20], 10);
}

/// Sums that are so near a power of two that their width is not that of other samples, moved.
#[test]
fn widths_near_a_power_of_two() {
    let mut both = Both::default();
    each(800_000, 400, |random| {
        let half = 1 << random.between(1, 14);
        let near = half + random.between(0, 4) as i16 - 2;
        let columns = random.between(1, 4);
        let mut row = vec![near; columns];
        row.extend(vec![-near; columns]);
        let matrix = Matrix::of_rows(&[&row]);
        for width in 8..=24 {
            compile_and_use(&mut both, random, &matrix, width);
        }
    });
    both.assert_compile(&[0], 17 * 400);
}

#[test]
fn buffers_of_every_length() {
    let mut both = Both::default();
    each(400_000, 150, |random| {
        let (matrix, width) = (any_matrix(random, 2, 3), random.sample_width());
        let length = netlist_length(&matrix, width);
        for room in 0..length + 10 {
            let old = random.bytes(room);
            let netlist = both.compile(&matrix.record(), width, &old);
            assert_eq!(netlist.is_some(), room >= length);
        }
    });
    both.assert_compile(&[0, 6], 1_500);
}

#[test]
fn buffers_around_the_length() {
    let mut both = Both::default();
    each(500_000, 1_000, |random| {
        let (matrix, width) = (any_bank(random, 6, 6), random.sample_width());
        let length = netlist_length(&matrix, width);
        let shorter = random.between(0, length - 1);
        for room in [0, shorter, length - 1, length, ROOM] {
            let old = random.bytes(room);
            both.compile(&matrix.record(), width, &old);
        }
    });
    both.assert_compile(&[0, 6], 2_000);
}

#[test]
fn damaged_matrix_records() {
    let mut both = Both::default();
    each(600_000, 40_000, |random| {
        let (matrix, width) = (any_bank(random, 4, 4), random.sample_width());
        let other = any_bank(random, 4, 4);
        let mut netlist = vec![0; ROOM];
        let compiled = reference::compile(&matrix.record(), width, &mut netlist);
        netlist.truncate(compiled.unwrap().written);

        let damaged = damage_matrix(random, &matrix.record(), &other.record());
        let room = random.choose(&[0, netlist.len() - 1, netlist.len(), netlist.len() + 200]);
        let old = random.bytes(room);
        both.compile(&damaged, random.any_width(), &old);
        both.check(&damaged, &netlist);
    });
    both.assert_compile(&[0, 1, 2, 3, 4, 5, 6, 20], 500);
    both.assert_check(&[0, 1, 2, 3, 4, 5, 13, 14], 50);
}
