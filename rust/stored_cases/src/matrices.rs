//! Matrices, matrix records that are refused, and the netlists that compile makes.

use cases::{filled, Matrix};

use crate::mersenne_twister::MersenneTwister;

const EXTREMES: [i16; 7] = [i16::MIN, i16::MAX, 21_845, -21_846, 0, 1, -1];

/// Coefficients of matrices that have one.
const ALONE: [i16; 14] = [
    0,
    1,
    -1,
    2,
    16_384,
    i16::MIN,
    i16::MAX,
    21_845,
    -21_846,
    21,
    85,
    1_365,
    6,
    23,
];

/// The bytes that suffice for every netlist.
pub const ROOM: usize = 6137;

/// The bytes that suffice for every matrix record: those of 8 by 8.
pub const MATRIX_ROOM: usize = 134;

/// The bytes that suffice for every Verilog text.
pub const VERILOG_ROOM: usize = 37_987;

/// Document 01's example.
pub fn three_minus_three() -> Matrix {
    Matrix::of_rows(&[&[3, -3]])
}

/// The matrix of no rows, whose record has no bytes.
pub fn no_rows() -> Matrix {
    Matrix::of_rows(&[])
}

/// Three rows: a sum, nothing, and an input negated.
pub fn five_zero_minus_one() -> Matrix {
    Matrix::of_rows(&[&[5], &[0], &[-1]])
}

/// Matrices of all sizes: zeros, single terms, extremes, marked banks, spread random coefficients.
pub fn matrices() -> Vec<Matrix> {
    let mut random = MersenneTwister::new(&[20_261_115]);
    let mut all: Vec<Matrix> = ALONE.iter().map(|&c| filled(1, 1, || c)).collect();
    all.extend([
        three_minus_three(),
        Matrix::of_rows(&[
            &[1, 1, 1, 1],
            &[2, 1, -1, -2],
            &[1, -1, -1, 1],
            &[1, -2, 2, -1],
        ]),
        filled(8, 8, || 0),
        filled(1, 8, || i16::MIN),
        filled(8, 8, || 21_845),
        filled(8, 8, || random.choose(&EXTREMES)),
        Matrix::of_rows(&[&[0, 0, 0], &[5, 0, 5], &[0, -20, 0]]),
    ]);
    for size in 2..=8 {
        all.push(filled(9 - size, size, || 1 << random.between(0, 14)));
    }
    for m in 1..=8 {
        for n in [m, 9 - m, random.between(1, 8) as usize] {
            let end = 1 << (random.choose(&[4, 8, 12, 16]) - 1);
            all.push(filled(m, n, || random.between(-end, end - 1) as i16));
        }
    }
    for _ in 0..6 {
        all.push(filled(8, 8, || random.between(-32_768, 32_767) as i16));
    }
    all
}

/// For compile alone, the marked bank of sums of five and banks of 4 to 6 rows and columns: in most of them depth decides
/// somewhere among divisors of equal score.
pub fn banks_with_equal_scores() -> Vec<Matrix> {
    let mut random = MersenneTwister::new(&[20_261_116]);
    let sizes = (4..=6).flat_map(|m| (4..=6).map(move |n| (m, n)));
    let mut all = vec![Matrix::of_rows(&[
        &[1, 1, 1, 1, 1],
        &[1, 1, 1, 0, 0],
        &[0, 0, 0, 1, 1],
    ])];
    for (m, n) in sizes {
        for _ in 0..6 {
            all.push(filled(m, n, || random.between(-32_768, 32_767) as i16));
        }
    }
    all
}

/// For compile alone, banks of few digits: ties in depth decide how their rows are summed. 549 and 483 have digits at 0, 2, 5 and 9, of
/// which no two pairs have one distance, so that no divisor takes them.
pub fn banks_with_equal_depths() -> Vec<Matrix> {
    let mut random = MersenneTwister::new(&[20_261_117]);
    let mut all = vec![
        // inputs alone, of which symbols decide
        Matrix::of_rows(&[&[1, 1, 1]]),
        Matrix::of_rows(&[&[-1, 1, 1]]),
        filled(1, 5, || -1),
        filled(1, 8, || 2),
        // terms of one symbol, an input's or a divisor's, of which exponents decide
        Matrix::of_rows(&[&[549]]),
        Matrix::of_rows(&[&[-483]]),
        Matrix::of_rows(&[&[549, 549]]),
        Matrix::of_rows(&[&[549, -483]]),
        // sums of inputs beside a divisor of their depth, 1 or 2
        Matrix::of_rows(&[&[1, 1, 1, 1], &[-8, -8, 0, 0]]),
        Matrix::of_rows(&[&[549, 549, 1, 1, 1]]),
        Matrix::of_rows(&[&[1, 1, 1, 1, 1, 1, 1], &[1, 1, 1, 0, 0, 0, 0]]),
    ];
    for m in 1..=8 {
        let n = random.between(4, 8) as usize;
        all.push(filled(m, n, || random.choose(&[0, 0, 1, -1, 16, 21, 549])));
        all.push(filled(m, n, || random.between(-8, 7) as i16));
    }
    all
}

/// For compile alone, banks that tell which operand is the first one, and which outputs are minus.
pub fn banks_with_negative_terms() -> Vec<Matrix> {
    let mut all = small_banks_with_negative_terms();
    let mut random = MersenneTwister::new(&[20_261_118]);
    for m in 1..=8 {
        let n = random.between(2, 8) as usize;
        let power = |random: &mut MersenneTwister, sign: i16| sign << random.between(0, 14);
        all.push(filled(m, n, || power(&mut random, -1)));
        all.push(filled(m, n, || {
            let sign = random.choose(&[1, -1, -1]);
            power(&mut random, sign)
        }));
    }
    // rows, and each of them negated
    for m in [1, 2, 4] {
        let rows = filled(m, 4, || random.between(-40, 40) as i16).rows;
        let negated = rows.iter().map(|row| row.iter().map(|c| -c).collect());
        all.push(Matrix {
            rows: negated.chain(rows.clone()).collect(),
        });
    }
    all
}

fn small_banks_with_negative_terms() -> Vec<Matrix> {
    let banks: [&[&[i16]]; 19] = [
        // one negative term
        &[&[0, -64, 0]],
        &[&[-1], &[2], &[0], &[-16_384]],
        // negative terms alone, added in their order
        &[&[-1, -1]],
        &[&[-549]],
        &[&[-1, -2, -1], &[-2, -1, -4], &[1, 4, 2]],
        // mixed signs: the positive one first, of one symbol, of two, of a sum and an input, of two sums
        &[&[3]],
        &[&[-3]],
        &[&[-1, 1]],
        &[&[1, -1]],
        &[&[1, -1, -1]],
        &[&[-1, -1, 1]],
        &[&[-1, -1, -1, 1]],
        &[&[-1, -1, 1, 1]],
        &[&[-3, 5, 7, -1]],
        // divisors of negated rows, alone, beside other terms, and of whole rows
        &[&[-1, -1], &[1, 1]],
        &[&[-1, 1, 0], &[-4, 4, 0]],
        &[&[-1, 1, 0], &[-4, 4, 1], &[4, -4, -8]],
        &[&[-4, 4, 1], &[4, -4, -1], &[-1, 1, 0]],
        &[&[-549, 549], &[549, -549]],
    ];
    banks.map(Matrix::of_rows).to_vec()
}

/// Matrix records that are refused, with 1 to 5.
pub fn refused_records() -> Vec<Vec<u8>> {
    let right = three_minus_three().record();
    let with = |place: usize, bytes: [u8; 2]| {
        let mut changed = right.clone();
        changed[place..place + 2].copy_from_slice(&bytes);
        changed
    };
    let mut all: Vec<Vec<u8>> = (1..6).map(|length| right[..length].to_vec()).collect(); // 1
    all.push([&right[..], &[0]].concat()); // 2
    all.push(right[..right.len() - 1].to_vec()); // 2
    all.push(with(2, [2, 0])); // 3
    all.push(with(2, [1, 1])); // 3
    for size in [[0, 2], [1, 0], [9, 1], [1, 255], [0, 0]] {
        all.push(with(4, size)); // 4
    }
    all.push(with(4, [2, 2])); // 5
    all.push(with(4, [1, 1])); // 5
    all.extend(records_without_coefficients());
    all
}

/// Six bytes with an m or n of 0, and fewer bytes: only no bytes at all are a matrix of no rows.
fn records_without_coefficients() -> Vec<Vec<u8>> {
    let zeros = [6, 0, 1, 0, 0, 0];
    let mut all: Vec<Vec<u8>> = (1..6).map(|length| zeros[..length].to_vec()).collect(); // 1
    all.extend((1..=6).map(|length| vec![0; length])); // 1 and 2
    all.push(vec![6, 0, 0, 0, 0, 0]); // 3
    for size in [[0, 0], [0, 1], [1, 0], [0, 8], [8, 0]] {
        all.push([&zeros[..4], &size].concat()); // 4
    }
    all
}

/// The netlist of a matrix record for samples of 16 bits.
pub fn netlist(record: &[u8]) -> Vec<u8> {
    netlist_at(16, record)
}

/// The netlist of a matrix record for samples of so many bits.
pub fn netlist_at(width: u8, record: &[u8]) -> Vec<u8> {
    let mut buffer = vec![0; ROOM];
    let compiled = reference::compile(record, width, &mut buffer).expect("a right record");
    buffer.truncate(compiled.written);
    buffer
}
