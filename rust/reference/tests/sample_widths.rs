//! Request A8: samples of 8 to 24 bits. Of a netlist only the head and the widths follow them.

use cases::{any_bank, Matrix, Random};
use reference::{check, compile, run, sample_width, step, Compiled};

/// The bytes that suffice for every netlist.
const ROOM: usize = 6137;

fn compiled(matrix: &Matrix, width: u8) -> (Compiled, Vec<u8>) {
    let mut buffer = vec![0; ROOM];
    let compiled = compile(&matrix.record(), width, &mut buffer).unwrap();
    buffer.truncate(compiled.written);
    (compiled, buffer)
}

/// The kinds and payloads behind the head, without widths, and the widths.
fn behind_the_head(netlist: &[u8]) -> (Vec<(u16, Vec<u8>)>, Vec<u8>) {
    let (mut records, mut widths) = (Vec::new(), Vec::new());
    let mut place = step(netlist, 0).unwrap().next;
    while let Ok(record) = step(netlist, place) {
        let mut payload = record.payload.to_vec();
        if record.kind != 5 {
            widths.extend(payload.pop());
        }
        records.push((record.kind, payload));
        place = record.next;
    }
    assert_eq!(place, netlist.len());
    (records, widths)
}

/// For each row the samples that make it largest, then those that make it smallest.
fn steep_vectors(matrix: &Matrix, width: u8) -> Vec<Vec<i32>> {
    let (lowest, highest) = (-(1 << (width - 1)), (1 << (width - 1)) - 1);
    let mut all = Vec::new();
    for row in &matrix.rows {
        for (negative, positive) in [(lowest, highest), (highest, lowest)] {
            let sample = |&c: &i16| if c < 0 { negative } else { positive };
            all.push(row.iter().map(sample).collect());
        }
    }
    all
}

#[test]
fn only_head_and_widths_differ() {
    let mut random = Random::new(20_261_122);
    for _ in 0..150 {
        let matrix = any_bank(&mut random, 8, 8);
        let (counts, sixteen) = compiled(&matrix, 16);
        let (records, _) = behind_the_head(&sixteen);
        let mut narrower = Vec::new();
        for width in 8..=24 {
            let (answer, netlist) = compiled(&matrix, width);
            let written = counts.written + usize::from(width != 16);
            assert_eq!(answer, Compiled { written, ..counts });
            let (others, widths) = behind_the_head(&netlist);
            assert_eq!(others, records);
            assert!(widths.iter().all(|&w| w <= width + 19));
            assert!(narrower.iter().zip(&widths).all(|(n, w)| n <= w));
            narrower = widths;

            assert_eq!(sample_width(&netlist), Ok(width));
            assert_eq!(check(&matrix.record(), &netlist), Ok(()));
            for samples in steep_vectors(&matrix, width) {
                let mut outputs = vec![1; matrix.m()];
                assert_eq!(run(&netlist, &samples, &mut outputs), Ok(()));
                assert_eq!(outputs, matrix.times(&samples));
            }
        }
    }
}

/// The widest output of all, and the longest netlist's room: 504 operations and 8 rows.
#[test]
fn widest_outputs() {
    let eight = Matrix::of_rows(&[&[i16::MIN; 8]]);
    for width in 8..=24 {
        let (_, widths) = behind_the_head(&compiled(&eight, width).1);
        assert_eq!(widths.iter().max(), Some(&(width + 19)));
    }
    assert_eq!(9 + 12 * 504 + 9 * 8 + 8, ROOM);
}

/// A width is not that of other samples, moved: the most of P = 257 and N = 257 is 127·257 + 128·257 = 65,535 at 8 bits, and
/// 255·257 + 256·257 = 131,327 at 9. So it is with 4,097 at 12 bits and 13, and with 65,537 at 16 bits and 17.
#[test]
fn widths_are_exact() {
    let rows: [(u8, &[i16]); 3] = [
        (8, &[257, -257]),
        (12, &[4_097, -4_097]),
        (16, &[i16::MAX, i16::MAX, 3, i16::MIN, i16::MIN, -1]),
    ];
    for (width, row) in rows {
        let last = |width| {
            let netlist = compiled(&Matrix::of_rows(&[row]), width).1;
            *behind_the_head(&netlist).1.last().unwrap()
        };
        assert_eq!(
            (last(width), last(width + 1)),
            (2 * width + 1, 2 * width + 3)
        );
    }
}
