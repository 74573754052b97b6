//! Read Matrix Market: every permitted spelling, every size and every entry, damaged files, buffers of all lengths; and what
//! becomes of the matrix record.

use cases::{any_matrix, bank, damaged_market_file, each, filled, market_file, plain_market_file};
use cases::{Matrix, Random};

use crate::both::{old_bytes, Both};

/// The bytes that suffice for every matrix record, and for every netlist.
const RECORD: usize = zaatarloft::MATRIX_BYTES;
const NETLIST: usize = zaatarloft::NETLIST_BYTES;

/// The first line of every file.
const FIRST: &str = "%%MatrixMarket matrix array integer general\n";

/// A matrix of this size with coefficients of all sizes, or with the ends and the middle of the range alone.
fn matrix_of_size(random: &mut Random, m: usize, n: usize) -> Matrix {
    if random.once_in(3) {
        filled(m, n, || random.choose(&[i16::MIN, i16::MAX, 0, 1, -1]))
    } else {
        let bits = random.between(1, 16) as u32;
        bank(random, m, n, bits)
    }
}

/// m and n within the limits, all of them.
fn sizes() -> impl Iterator<Item = (usize, usize)> {
    (1..=8).flat_map(|m| (1..=8).map(move |n| (m, n)))
}

/// Files in every spelling give the very record of their matrix.
#[test]
fn every_size_in_every_spelling() {
    let mut both = Both::default();
    each(18_000_000, 500, |random| {
        for (m, n) in sizes() {
            let matrix = matrix_of_size(random, m, n);
            let text = market_file(random, &matrix);
            let room = RECORD + random.between(0, 3);
            let old = old_bytes(random, room);
            let record = both.read_matrix_market(&text, &old);
            assert_eq!(record, Some(matrix.record()));
        }
    });
    both.assert_market(&[0], 32_000);
}

#[test]
fn every_entry() {
    let mut both = Both::default();
    for entry in -70_000..=70_000 {
        for spelled in [entry.to_string(), format!("{entry:+08}")] {
            let text = format!("{FIRST}1 1\n{}\n", spelled.replace('+', ""));
            let record = both.read_matrix_market(text.as_bytes(), &[0xA5; 8]);
            let expected = i16::try_from(entry).ok().map(|entry| Matrix {
                rows: vec![vec![entry]],
            });
            assert_eq!(record, expected.map(|matrix| matrix.record()));
        }
    }
    both.assert_market(&[0, 19], 2 * 65_536);
}

/// Sizes within the limits and around them, and those that only lost bits would bring within.
#[test]
fn every_size_line() {
    let mut both = Both::default();
    let near: Vec<u128> = (0..=20).chain(250..=270).collect();
    let far = [16, 31, 32, 63, 64, 65, 100].map(|bits| (1 << bits) + 1);
    let all: Vec<u128> = near.into_iter().chain(far).collect();
    for (&m, &n) in all.iter().flat_map(|m| all.iter().map(move |n| (m, n))) {
        let within = (1..=8).contains(&m) && (1..=8).contains(&n);
        let entries = if within { m * n } else { 1 };
        let text = format!("{FIRST}{m} {n}\n{}", "-5\n".repeat(entries as usize));
        let record = both.read_matrix_market(text.as_bytes(), &[0xA5; RECORD]);
        assert_eq!(record.is_some(), within);
    }
    both.assert_market(&[0, 4], 64);
}

/// Digits by the thousands, before and behind the one that counts.
#[test]
fn long_numbers() {
    let mut both = Both::default();
    for count in [1, 2, 18, 19, 20, 21, 100, 5_000, 100_000] {
        let zeros = "0".repeat(count);
        let texts = [
            format!("{FIRST}{zeros}1 {zeros}1\n-{zeros}7\n"),
            format!("{FIRST}{zeros} 1\n7\n"),
            format!("{FIRST}1 8{zeros}\n7\n"),
            format!("{FIRST}1 1\n32767{zeros}\n"),
            format!("{FIRST}1 1\n-8{zeros}{zeros}\n"),
            format!("{FIRST}%{zeros}\n1 1\n{zeros}\n"),
            format!("{FIRST}1 1\n7\n{zeros}\n"),
            format!("{FIRST}%{zeros}"),
            format!("{FIRST}{zeros}"),
            zeros,
        ];
        for text in texts {
            both.read_matrix_market(text.as_bytes(), &[0xA5; 9]);
        }
    }
    both.assert_market(&[0, 4, 17, 18, 19], 9);
}

#[test]
fn damaged_files() {
    let mut both = Both::default();
    each(19_000_000, 150_000, |random| {
        let matrix = match random.between(0, 3) {
            0 => any_matrix(random, 8, 8),
            _ => any_matrix(random, 3, 3),
        };
        let text = damaged_market_file(random, &matrix);
        let length = matrix.record().len();
        let shorter = random.between(0, length - 1);
        let room = random.choose(&[shorter, length - 1, length, RECORD, RECORD + 10]);
        let old = old_bytes(random, room);
        both.read_matrix_market(&text, &old);
    });
    both.assert_market(&[0, 4, 6, 17, 18, 19], 5_000);
}

/// A byte changed or put in, with just enough room and with a byte less.
#[test]
fn every_byte_at_every_place() {
    let mut both = Both::default();
    let text = format!("{FIRST}%\n2 1\n-7\n30\n").into_bytes();
    for place in 0..=text.len() {
        let (before, behind) = text.split_at(place);
        for byte in 0..=255 {
            let room = if byte % 2 == 0 { 10 } else { 9 };
            let old = vec![0xA5; room];
            both.read_matrix_market(&[before, &[byte], behind].concat(), &old);
            if let Some((_, behind)) = behind.split_first() {
                both.read_matrix_market(&[before, &[byte], behind].concat(), &old);
            }
        }
    }
    both.assert_market(&[0, 4, 6, 17, 18, 19], 30);
}

#[test]
fn files_cut_off_at_every_place() {
    let mut both = Both::default();
    each(20_000_000, 200, |random| {
        let matrix = any_matrix(random, 4, 4);
        let text = market_file(random, &matrix);
        for end in 0..=text.len().min(1_000) {
            let record = both.read_matrix_market(&text[..end], &[0xA5; RECORD]);
            assert_eq!(record.is_some(), end == text.len());
        }
    });
    both.assert_market(&[0, 17, 18, 19], 150);
}

#[test]
fn buffers_of_every_length() {
    let mut both = Both::default();
    each(21_000_000, 5, |random| {
        for (m, n) in sizes() {
            let matrix = matrix_of_size(random, m, n);
            let text = market_file(random, &matrix);
            let length = matrix.record().len();
            for room in 0..=length + 3 {
                let old = old_bytes(random, room);
                let record = both.read_matrix_market(&text, &old);
                assert_eq!(record.is_some(), room >= length);
            }
        }
    });
    both.assert_market(&[0, 6], 1_000);
}

/// Bytes that are no text at all.
#[test]
fn any_bytes() {
    let mut both = Both::default();
    each(22_000_000, 20_000, |random| {
        let count = random.between(0, 60);
        let mut text = random.bytes(count);
        if random.once_in(2) {
            text.splice(..0, FIRST.bytes());
        }
        both.read_matrix_market(&text, &[0xA5; RECORD]);
    });
    both.assert_market(&[17], 20_000);
}

/// The record of a file compiles, and check accepts its netlist.
#[test]
fn banks_from_files() {
    let mut both = Both::default();
    each(23_000_000, 400, |random| {
        let matrix = any_matrix(random, 8, 8);
        let text = plain_market_file(&matrix);
        let old = old_bytes(random, RECORD);
        let record = both.read_matrix_market(&text, &old).unwrap();
        let (width, old) = (random.sample_width(), vec![0xA5; NETLIST]);
        let netlist = both.compile(&record, width, &old).unwrap();
        assert!(both.check(&matrix.record(), &netlist));
    });
    both.assert_market(&[0], 400);
    both.assert_check(&[0], 400);
}
