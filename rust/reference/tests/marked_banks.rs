//! Document 01's marked banks and its example.

use cases::Matrix;
use reference::{check, compile, compile_by, read, run, sample_width, step};
use reference::{Compiled, Netlist, Order, Refusal, Rules};

/// The answer and the netlist of a matrix for samples of so many bits.
fn compiled_at(width: u8, rows: &[&[i16]]) -> (Compiled, Vec<u8>) {
    let matrix = Matrix::of_rows(rows);
    let mut buffer = vec![0xA5; 6137];
    let compiled = compile(&matrix.record(), width, &mut buffer).unwrap();
    buffer.truncate(compiled.written);
    assert_eq!(check(&matrix.record(), &buffer), Ok(()));
    assert_eq!(sample_width(&buffer), Ok(width));
    (compiled, buffer)
}

fn compiled(rows: &[&[i16]]) -> (Compiled, Vec<u8>) {
    compiled_at(16, rows)
}

/// The widths that a netlist records, in order.
fn widths(netlist: &[u8]) -> Vec<u8> {
    let (mut widths, mut place) = (Vec::new(), 0);
    while let Ok(record) = step(netlist, place) {
        if record.kind == 3 || record.kind == 4 {
            widths.push(*record.payload.last().unwrap());
        }
        place = record.next;
    }
    widths
}

#[test]
fn one_coefficient() {
    let (twenty_one, _) = compiled(&[&[21]]);
    assert_eq!((twenty_one.operations, twenty_one.divisors), (2, 0));
    let (eighty_five, _) = compiled(&[&[85]]);
    assert_eq!(eighty_five.operations, 2);
    assert_eq!((eighty_five.divisors, eighty_five.replacements), (1, 2));
    let (longest, _) = compiled(&[&[1365]]);
    assert_eq!((longest.operations, longest.plain), (3, 5));
    assert_eq!((longest.divisors, longest.replacements), (1, 3));
}

#[test]
fn four_by_four() {
    let (bank, _) = compiled(&[
        &[1, 1, 1, 1],
        &[2, 1, -1, -2],
        &[1, -1, -1, 1],
        &[1, -2, 2, -1],
    ]);
    assert_eq!((bank.plain, bank.divisors), (12, 4));
    assert_eq!((bank.replacements, bank.operations, bank.depth), (8, 8, 2));
}

#[test]
fn marked_widths() {
    assert_eq!(widths(&compiled(&[&[1, 1]]).1), [17, 17]);
    assert_eq!(widths(&compiled(&[&[-1]]).1), [17]);
    assert_eq!(widths(&compiled(&[&[0]]).1), [1]);
    let (_, eight) = compiled(&[&[-32_768; 8]]);
    assert_eq!(widths(&eight)[6..], [34, 35]);
    let (_, mixed) = compiled(&[&[-3, 5, 7, -1]]);
    assert_eq!(widths(&mixed), [18, 19, 19, 19, 20, 20, 20]);
}

/// As at 16 bits, but that every sum has as many bits more or less as the samples.
#[test]
fn marked_widths_of_other_samples() {
    for (width, [sum, last, negated]) in [(8, [9, 26, 27]), (12, [13, 30, 31]), (24, [25, 42, 43])]
    {
        let widths_of = |rows| widths(&compiled_at(width, rows).1);
        assert_eq!(widths_of(&[&[1, 1]]), [sum, sum]);
        assert_eq!(widths_of(&[&[-1]]), [sum]);
        assert_eq!(widths_of(&[&[0]]), [1]);
        assert_eq!(widths_of(&[&[-32_768; 8]])[6..], [last, negated]);
    }
}

#[test]
fn negated_outputs() {
    let negated = |rows: &[&[i16]]| compiled(rows).0.negated;
    assert_eq!(negated(&[&[-1]]), 1);
    assert_eq!(negated(&[&[-1, 1]]), 0);
    assert_eq!(negated(&[&[-32_768; 8]]), 1);
    assert_eq!(negated(&[&[-3, 5, 7, -1]]), 0);
    assert_eq!(negated(&[&[5], &[0], &[-1], &[-2]]), 2);
}

#[test]
fn three_minus_three() {
    let (bank, netlist) = compiled(&[&[3, -3]]);
    let expected = [
        &[8, 0, 2, 0, 1, 2, 2, 0][..],
        &[12, 0, 3, 0, 1, 0, 0, 0, 1, 0, 0, 17],
        &[12, 0, 3, 0, 1, 2, 0, 2, 2, 0, 0, 19],
        &[9, 0, 4, 0, 0, 3, 0, 0, 19],
        &[8, 0, 5, 0, 2, 0, 2, 0],
    ];
    assert_eq!(netlist, expected.concat());
    let counts = Compiled {
        written: 49,
        operations: 2,
        plain: 3,
        divisors: 1,
        replacements: 2,
        depth: 2,
        negated: 0,
    };
    assert_eq!(bank, counts);
    let read_back = Netlist {
        m: 1,
        n: 2,
        operations: 2,
        depth: 2,
    };
    assert_eq!(read(&netlist), Ok(read_back));
    let mut outputs = [7];
    assert_eq!(run(&netlist, &[-32_768, 32_767], &mut outputs), Ok(()));
    assert_eq!(outputs, [-196_605]);
    let samples = Refusal {
        number: 15,
        place: 0,
    };
    assert_eq!(run(&netlist, &[1], &mut []), Err(samples));
}

/// The head says the width, and of 12 bits 4,095 is the most of x0 − x1, and 12,285 of three times that.
#[test]
fn three_minus_three_of_twelve_bits() {
    let (bank, netlist) = compiled_at(12, &[&[3, -3]]);
    let expected = [
        &[9, 0, 6, 0, 1, 2, 2, 0, 12][..],
        &[12, 0, 3, 0, 1, 0, 0, 0, 1, 0, 0, 13],
        &[12, 0, 3, 0, 1, 2, 0, 2, 2, 0, 0, 15],
        &[9, 0, 4, 0, 0, 3, 0, 0, 15],
        &[8, 0, 5, 0, 2, 0, 2, 0],
    ];
    assert_eq!(netlist, expected.concat());
    let (sixteen, _) = compiled(&[&[3, -3]]);
    let written = 50;
    assert_eq!(bank, Compiled { written, ..sixteen });
    let mut outputs = [7];
    assert_eq!(run(&netlist, &[2_047, -2_048], &mut outputs), Ok(()));
    assert_eq!(outputs, [12_285]);
}

fn refused<T>(number: u8, place: usize) -> Result<T, Refusal> {
    Err(Refusal { number, place })
}

/// 20 is tested before 1, and so before 6.
#[test]
fn refused_widths() {
    let record = Matrix::of_rows(&[&[3, -3]]).record();
    for width in (0..8).chain(25..=255) {
        for matrix in [&record[..], &record[..5], &[]] {
            let mut buffer = [0xA5; 50];
            assert_eq!(compile(matrix, width, &mut buffer), refused(20, 0));
            assert_eq!(buffer, [0xA5; 50]);
            assert_eq!(compile(matrix, width, &mut []), refused(20, 0));
        }
    }
}

/// A head of kind 2 has samples of 16 bits too; 21 comes after 15 and 16, and the first of two samples is named.
#[test]
fn samples_that_do_not_fit() {
    for width in 8..=24 {
        let end = 1 << (width - 1);
        let (_, netlist) = compiled_at(width, &[&[3, -3]]);
        let run = |samples: &[i32]| {
            let mut outputs = [7];
            run(&netlist, samples, &mut outputs).map(|()| outputs[0])
        };
        assert_eq!(run(&[end - 1, -end]), Ok(3 * (2 * i64::from(end) - 1)));
        assert_eq!(run(&[-end, end - 1]), Ok(-3 * (2 * i64::from(end) - 1)));
        assert_eq!(run(&[end, 0]), refused(21, 0));
        assert_eq!(run(&[0, end]), refused(21, 1));
        assert_eq!(run(&[-end - 1, 0]), refused(21, 0));
        assert_eq!(run(&[0, -end - 1]), refused(21, 1));
        assert_eq!(run(&[i32::MIN, i32::MAX]), refused(21, 0));
        assert_eq!(run(&[i32::MIN]), refused(15, 0));
        let no_outputs = reference::run(&netlist, &[end, end], &mut []);
        assert_eq!(no_outputs, refused(16, 0));
    }
}

/// Of the two kinds of heads each with the other's length, and widths that the longer one may not say.
#[test]
fn refused_heads() {
    let (_, sixteen) = compiled(&[&[3, -3]]);
    let head = |kind: u8, said: &[u8]| {
        let start = [8 + said.len() as u8, 0, kind, 0];
        [&start[..], &sixteen[4..8], said, &sixteen[8..]].concat()
    };
    assert_eq!(read(&head(2, &[12])), refused(8, 0));
    assert_eq!(read(&head(6, &[])), refused(8, 0));
    assert_eq!(read(&head(7, &[12])), refused(8, 0));
    for width in (0..8).chain([16]).chain(25..=255) {
        assert_eq!(read(&head(6, &[width])), refused(9, 0));
        assert_eq!(sample_width(&head(6, &[width])), refused(9, 0));
    }
    for width in (8..16).chain(17..=24) {
        assert_eq!(read(&head(6, &[width])), refused(10, 9));
    }
    assert_eq!(read(&head(2, &[])), read(&sixteen));
}

/// A head with m, n and operations 0, then totals of 0.
const NO_ROWS: [u8; 16] = [8, 0, 2, 0, 0, 0, 0, 0, 8, 0, 5, 0, 0, 0, 0, 0];

/// No bytes mean a bank of no rows and no inputs.
#[test]
fn no_bytes() {
    let mut buffer = [0xA5; 17];
    let counts = Compiled {
        written: 16,
        operations: 0,
        plain: 0,
        divisors: 0,
        replacements: 0,
        depth: 0,
        negated: 0,
    };
    assert_eq!(compile(&[], 16, &mut buffer), Ok(counts));
    assert_eq!(buffer[..16], NO_ROWS);
    assert_eq!(buffer[16], 0xA5);
    let read_back = Netlist {
        m: 0,
        n: 0,
        operations: 0,
        depth: 0,
    };
    assert_eq!(read(&NO_ROWS), Ok(read_back));
    assert_eq!(check(&[], &NO_ROWS), Ok(()));
    assert_eq!(run(&NO_ROWS, &[], &mut []), Ok(()));

    let (wider, netlist) = compiled_at(24, &[]);
    assert_eq!(
        wider,
        Compiled {
            written: 17,
            ..counts
        }
    );
    assert_eq!(
        netlist,
        [9, 0, 6, 0, 0, 0, 0, 0, 24, 8, 0, 5, 0, 0, 0, 0, 0]
    );
}

#[test]
fn refusals_beside_no_bytes() {
    let refused = |number| refused(number, 0);
    assert_eq!(compile(&[], 16, &mut [0; 15]).map(drop), refused(6));
    assert_eq!(compile(&[], 12, &mut [0; 16]).map(drop), refused(6));
    assert_eq!(run(&NO_ROWS, &[1], &mut [7]), refused(15));
    assert_eq!(run(&NO_ROWS, &[], &mut [7]), refused(16));

    let (record, netlist) = (Matrix::of_rows(&[&[1]]).record(), compiled(&[&[1]]).1);
    assert_eq!(check(&[], &netlist), refused(13));
    assert_eq!(check(&record, &NO_ROWS), refused(13));

    for length in 1..6 {
        assert_eq!(check(&record[..length], &NO_ROWS), refused(1));
    }
    assert_eq!(check(&[6, 0, 1, 0, 0, 0], &NO_ROWS), refused(4));
    for [m, n, operations] in [[0, 1, 0], [1, 0, 0], [0, 0, 1]] {
        let mut head = NO_ROWS;
        head[4..7].copy_from_slice(&[m, n, operations]);
        assert_eq!(read(&head).map(drop), refused(9));
    }
}

/// (0<<0) + (1<<0) comes first and gets symbol 5; then (2<<0) + (5<<0) and (3<<0) + (4<<0) have score 2, and the second the
/// smaller depth.
#[test]
fn sums_of_five() {
    let rows: [&[i16]; 3] = [&[1, 1, 1, 1, 1], &[1, 1, 1, 0, 0], &[0, 0, 0, 1, 1]];
    let first = [12, 0, 3, 0, 0, 0, 0, 0, 1, 0, 0, 17];
    let deep = [12, 0, 3, 0, 0, 2, 0, 0, 5, 0, 0, 18];
    let shallow = [12, 0, 3, 0, 0, 3, 0, 0, 4, 0, 0, 17];
    let (bank, netlist) = compiled(&rows);
    assert_eq!((bank.divisors, bank.replacements, bank.depth), (3, 6, 3));
    assert_eq!(netlist[8..44], [first, shallow, deep].concat());

    let order = Order::DivisorAlone;
    let rules = Rules {
        order,
        ..Rules::default()
    };
    let mut buffer = [0; 6137];
    compile_by(rules, &Matrix::of_rows(&rows).record(), 16, &mut buffer).unwrap();
    assert_eq!(buffer[8..44], [first, deep, shallow].concat());
}
