//! Netlists that no compiler writes, and damaged ones.

use cases::{other_heads, Matrix};

use crate::matrices::{five_zero_minus_one, netlist_at, no_rows, three_minus_three};
use crate::widths::WIDTHS;

/// A matrix record, and a netlist to check against it.
pub type Pair = (Vec<u8>, Vec<u8>);

const ADD: u8 = 0;
const SUBTRACT: u8 = 1;
const PLUS: u8 = 0;
const MINUS: u8 = 1;
const ZERO: u8 = 2;

/// A symbol and its shift.
type Operand = (u16, u8);

fn record(kind: u8, payload: &[u8]) -> Vec<u8> {
    [&[payload.len() as u8 + 4, 0, kind, 0], payload].concat()
}

fn head(m: u8, n: u8, operations: u16) -> Vec<u8> {
    let [low, high] = operations.to_le_bytes();
    record(2, &[m, n, low, high])
}

/// A head for samples of so many bits, which one of kind 2 does not say.
fn head_at(sample_width: u8, m: u8, n: u8, operations: u16) -> Vec<u8> {
    let [low, high] = operations.to_le_bytes();
    match sample_width {
        16 => head(m, n, operations),
        _ => record(6, &[m, n, low, high, sample_width]),
    }
}

fn operation(sign: u8, a: Operand, b: Operand, width: u8) -> Vec<u8> {
    let ([low_a, high_a], [low_b, high_b]) = (a.0.to_le_bytes(), b.0.to_le_bytes());
    record(3, &[sign, low_a, high_a, a.1, low_b, high_b, b.1, width])
}

fn output(sign: u8, operand: Operand, width: u8) -> Vec<u8> {
    let [low, high] = operand.0.to_le_bytes();
    record(4, &[sign, low, high, operand.1, width])
}

fn totals(operations: u16, depth: u16) -> Vec<u8> {
    record(5, &[operations.to_le_bytes(), depth.to_le_bytes()].concat())
}

fn pair(rows: &[&[i16]], records: &[Vec<u8>]) -> Pair {
    (Matrix::of_rows(rows).record(), records.concat())
}

/// Netlists that no compiler writes, each with a matrix record to check it against.
pub fn handmade() -> Vec<Pair> {
    [
        other_forms(),
        zero_outputs(),
        WIDTHS.map(wide_values).concat(),
        long_netlists(),
        small_netlists(),
        sizes_of_zero(),
    ]
    .concat()
}

/// Accepted, though compile would write others.
fn other_forms() -> Vec<Pair> {
    let unused = operation(SUBTRACT, (0, 0), (0, 0), 1);
    vec![
        pair(
            &[&[3]],
            &[
                head(1, 1, 2),
                operation(ADD, (0, 1), (0, 0), 18),
                unused,
                output(PLUS, (1, 0), 18),
                totals(2, 1),
            ],
        ),
        pair(
            &[&[2, 1]],
            &[
                head(1, 2, 1),
                operation(ADD, (1, 0), (0, 1), 18),
                output(PLUS, (2, 0), 18),
                totals(1, 1),
            ],
        ),
        pair(
            &[&[0]],
            &[
                head(1, 1, 1),
                operation(SUBTRACT, (0, 3), (0, 3), 1),
                output(MINUS, (1, 5), 1),
                totals(1, 1),
            ],
        ),
        pair(
            &[&[0]],
            &[head(1, 1, 0), output(ZERO, (0, 0), 1), totals(0, 0)],
        ),
    ]
}

/// A zero output, also with another width, symbol or shift.
fn zero_outputs() -> Vec<Pair> {
    let mut all = Vec::new();
    for width in [1, 2] {
        for operand in [(0, 0), (0, 1), (1, 0), (1, 1)] {
            let sum = operation(ADD, (0, 0), (0, 0), 17);
            let zero = output(ZERO, operand, width);
            all.push(pair(&[&[0]], &[head(1, 1, 1), sum, zero, totals(1, 1)]));
        }
    }
    all
}

/// Widths 44 and 45 of sums and outputs, over samples of s bits. Symbol 1 has 16 bits more than a sample, and symbol 2 has 41 bits, or 40
/// over samples of 8.
fn wide_values(s: u8) -> Vec<Pair> {
    let first = || operation(ADD, (0, 15), (0, 15), s + 16);
    let shift = (24 - s).min(15);
    let width = s + 17 + shift;
    let second = || operation(ADD, (1, shift), (1, shift), width);
    let netlist = |m, count: u16, records: &[Vec<u8>]| {
        let mut all = vec![head_at(s, m, 1, count), first(), second()];
        all.extend_from_slice(records);
        all.push(totals(count, count));
        pair(&[&[1]], &all)
    };
    let mut all = Vec::new();
    for widest in [44, 45] {
        let top = widest - width;
        let twice = operation(ADD, (2, top - 1), (2, top - 1), widest);
        all.push(netlist(1, 3, &[twice, output(PLUS, (3, 0), widest)]));
        let plus = || output(PLUS, (2, top), widest);
        all.push(netlist(2, 2, &[plus(), output(PLUS, (0, 0), s)]));
        all.push(netlist(1, 2, &[plus()]));
        all.push(netlist(1, 2, &[output(MINUS, (2, top - 1), widest)]));
        all.push(netlist(1, 2, &[output(MINUS, (2, top), widest + 1)]));
    }
    all
}

/// Symbol 511, and one operation too many; the last one is as long as any netlist.
fn long_netlists() -> Vec<Pair> {
    let long = |(count, m, s): (u16, u8, u8)| {
        let zero = |k: u16| operation(SUBTRACT, (7 + k, 0), (7 + k, 0), 1);
        let mut records = vec![head_at(s, m, 8, count)];
        records.extend((0..count - 1).map(zero));
        records.push(operation(ADD, (7, 0), (6 + count, 0), s));
        records.extend((0..m).map(|_| output(PLUS, (7 + count, 0), s)));
        records.push(totals(count, count));
        let row: &[i16] = &[0, 0, 0, 0, 0, 0, 0, 1];
        pair(&vec![row; m.into()], &records)
    };
    [(503, 1, 16), (504, 1, 16), (505, 1, 16), (504, 8, 24)]
        .map(long)
        .to_vec()
}

fn small_netlists() -> Vec<Pair> {
    let input = || output(PLUS, (0, 0), 16);
    let twice = || output(PLUS, (0, 1), 17);
    let own_operand = operation(ADD, (0, 0), (1, 0), 17); // an operand equal to its own symbol
    let sum = output(PLUS, (1, 0), 17);
    let one = |records: &[Vec<u8>]| pair(&[&[1]], records);
    let two_rows = |second: Vec<u8>| [head(2, 1, 0), input(), second, totals(0, 0)];
    let mut longer_record = one(&[head(1, 1, 0), input(), totals(0, 0)]);
    longer_record.0.push(0);
    vec![
        one(&[head(1, 1, 1), own_operand, sum, totals(1, 1)]), // 9
        pair(&[&[1], &[2]], &two_rows(twice())),
        pair(&[&[1], &[2]], &two_rows(input())), // 14 at 1
        pair(&[&[1, 1]], &two_rows(twice())),    // 13
        longer_record,                           // 2
        one(&[head(1, 1, 0), input(), totals(0, 1)]), // 11
        one(&[head(1, 1, 0), input(), totals(1, 0)]), // 11
        one(&[head(0, 1, 0), totals(0, 0)]),     // 9
        one(&[head(1, 9, 0), input(), totals(0, 0)]), // 9
        one(&[]),                                // 7
    ]
}

/// Heads with m or n of 0, which are refused with 9 unless both are 0 and there are no operations. Where it can be, what stands behind
/// such a head is as it would be if the head were right.
fn sizes_of_zero() -> Vec<Pair> {
    let zero = || output(ZERO, (0, 0), 1);
    let difference = || operation(SUBTRACT, (0, 0), (0, 0), 1);
    let mut all = Vec::new();
    for [m, n] in [[0, 1], [1, 0], [0, 8], [8, 0], [0, 9], [9, 0], [0, 255]] {
        let outputs = vec![zero(); m.into()].concat();
        all.push(vec![head(m, n, 0), outputs, totals(0, 0)]);
    }
    for count in [1, 2, 504, 505, u16::MAX] {
        all.push(vec![head(0, 0, count), totals(count, 0)]);
    }
    all.push(vec![head(0, 0, 1), difference(), totals(1, 1)]);
    all.push(vec![head(0, 1, 1), difference(), totals(1, 1)]);
    all.push(vec![head(0, 0, 0), difference(), totals(0, 0)]); // 8 at 8
    all.push(vec![head(0, 0, 0), zero(), totals(0, 0)]); // 8 at 8
    all.iter().map(|records| pair(&[], records)).collect()
}

/// Every byte of five netlists set to several values, every truncation, bytes left over; then other heads.
pub fn damaged() -> Vec<Pair> {
    let some = [
        (three_minus_three(), 16),
        (five_zero_minus_one(), 16),
        (no_rows(), 16),
        (three_minus_three(), 12),
        (no_rows(), 24),
    ];
    let mut all = Vec::new();
    for (matrix, width) in some {
        let record = matrix.record();
        let right = netlist_at(width, &record);
        let mut push = |netlist: Vec<u8>| all.push((record.clone(), netlist));
        for (place, &old) in right.iter().enumerate() {
            for value in [0, 1, 2, 16, 255, old ^ 1, old.wrapping_add(1)] {
                if value != old {
                    let mut changed = right.clone();
                    changed[place] = value;
                    push(changed);
                }
            }
        }
        for end in 0..right.len() {
            push(right[..end].to_vec());
        }
        push([&right[..], &[0]].concat());
        push(right.repeat(2));
    }
    all.extend(damaged_heads());
    all
}

/// Heads of both kinds damaged in each byte, with rows and without: kinds with the other's length, widths that no head may say, and widths
/// that are not those of the samples.
fn damaged_heads() -> Vec<Pair> {
    let mut all = Vec::new();
    for (matrix, width) in [
        (three_minus_three(), 16),
        (three_minus_three(), 8),
        (three_minus_three(), 24),
        (no_rows(), 16),
        (no_rows(), 20),
    ] {
        let record = matrix.record();
        let right = netlist_at(width, &record);
        let others = other_heads(&right).into_iter();
        all.extend(others.map(|netlist| (record.clone(), netlist)));
    }
    all
}
