//! Read, sample_width, check and run on netlists: those of compile, others that are right, and damaged ones, for samples of all widths.

use cases::{
    any_bank, any_matrix, any_netlist, damage, damage_netlist, each, each_change_of_a_byte,
    other_heads, plain_netlist, Matrix, Random,
};

use crate::both::Both;

/// What each call may answer to a netlist of any bytes and a right matrix record.
pub const READ: [u8; 7] = [0, 7, 8, 9, 10, 11, 12];
const CHECK: [u8; 9] = [0, 7, 8, 9, 10, 11, 12, 13, 14];
const RUN: [u8; 10] = [0, 7, 8, 9, 10, 11, 12, 15, 16, 21];

/// The netlist of a matrix for samples of so many bits.
pub fn compiled(matrix: &Matrix, width: u8) -> Vec<u8> {
    let mut netlist = vec![0; zaatarloft::NETLIST_BYTES];
    let compiled = reference::compile(&matrix.record(), width, &mut netlist);
    netlist.truncate(compiled.unwrap().written);
    netlist
}

/// A netlist of any of the three kinds, for samples of any width.
pub fn netlist(random: &mut Random, matrix: &Matrix) -> Vec<u8> {
    let (most, width) = (random.choose(&[5, 30, 120]), random.sample_width());
    let operations = random.between(0, most);
    match random.between(0, 2) {
        0 => compiled(matrix, width),
        1 => any_netlist(random, width, matrix.m(), matrix.n(), operations),
        _ => plain_netlist(random, width, matrix).unwrap_or_else(|| compiled(matrix, width)),
    }
}

/// All four calls; run with right and wrong counts of samples and outputs, and samples that fit or do not.
fn all_calls(both: &mut Both, random: &mut Random, matrix: &Matrix, netlist: &[u8]) {
    let (m, n) = (matrix.m(), matrix.n());
    both.read(netlist);
    let width = both.sample_width(netlist).unwrap_or(16);
    both.check(&matrix.record(), netlist);
    let samples = random.choose(&[n, n, n, n.saturating_sub(1), n + 1, 0, 8]);
    let outputs = random.choose(&[m, m, m, m.saturating_sub(1), m + 1, 0, 8]);
    let samples = random.near_samples(width, samples);
    let old: Vec<i64> = (0..outputs).map(|_| random.number() as i64).collect();
    both.run(netlist, &samples, &old);
}

#[test]
fn damaged_netlists() {
    let mut both = Both::default();
    each(1_000_000, 100_000, |random| {
        let (matrix, other) = (any_bank(random, 4, 4), any_bank(random, 4, 4));
        let right = netlist(random, &matrix);
        let spliced = netlist(random, &other);
        let damaged = damage_netlist(random, &right, &spliced);
        all_calls(&mut both, random, &matrix, &damaged);
        both.check(&other.record(), &damaged);
        let twice = damage(random, &damaged, &right);
        all_calls(&mut both, random, &matrix, &twice);
    });
    both.assert_read(&READ, 1_000);
    both.assert_sample_width(&READ, 1_000);
    both.assert_check(&CHECK, 500);
    both.assert_run(&RUN, 100);
}

#[test]
fn right_netlists() {
    let mut both = Both::default();
    each(2_000_000, 15_000, |random| {
        let matrix = any_matrix(random, 8, 8);
        let right = netlist(random, &matrix);
        all_calls(&mut both, random, &matrix, &right);
        let mut changed = matrix.clone();
        let row = &mut changed.rows[random.between(0, matrix.m() - 1)];
        let coefficient = &mut row[random.between(0, matrix.n() - 1)];
        *coefficient = coefficient.wrapping_add(random.choose(&[1, -1, 256]));
        all_calls(&mut both, random, &changed, &right);
        let other = any_bank(random, 8, 8);
        all_calls(&mut both, random, &other, &right);
    });
    both.assert_read(&[0, 10], 100);
    both.assert_check(&[0, 10, 13, 14], 100);
    both.assert_run(&[0, 10, 15, 16, 21], 100);
}

/// Netlists for samples of every width, with heads of both kinds damaged in each byte.
#[test]
fn other_heads_of_every_width() {
    let mut both = Both::default();
    each(25_000_000, 20, |random| {
        for width in 8..=24 {
            let matrix = any_bank(random, 3, 3);
            for head in other_heads(&compiled(&matrix, width)) {
                all_calls(&mut both, random, &matrix, &head);
            }
        }
    });
    both.assert_read(&[0, 7, 8, 9, 10, 11], 1);
}

/// Every kind and length of a head near those of the two, with every byte where a width is due.
#[test]
fn every_kind_length_and_width_of_a_head() {
    let mut both = Both::default();
    let mut random = Random::new(3);
    let matrix = Matrix::of_rows(&[&[3, -3]]);
    let right = compiled(&matrix, 12);
    for (kind, length) in (0..=9).flat_map(|kind| (0..=12).map(move |length| (kind, length))) {
        for byte in 0..=255 {
            let mut netlist = right.clone();
            (netlist[0], netlist[2], netlist[8]) = (length, kind, byte);
            all_calls(&mut both, &mut random, &matrix, &netlist);
            netlist.remove(8);
            all_calls(&mut both, &mut random, &matrix, &netlist);
        }
    }
    both.assert_read(&[0, 7, 8, 9, 10], 1);
}

/// Every vector of two samples at the ends of each width, one past them and far past them; then with too few outputs.
#[test]
fn samples_at_the_ends() {
    let mut both = Both::default();
    let matrix = Matrix::of_rows(&[&[257, -257], &[-1, -1], &[0, 0]]);
    for width in 8..=24 {
        let netlist = compiled(&matrix, width);
        let end = 1 << (width - 1);
        let fits = |&x: &i32| -end <= x && x < end;
        let all = [
            i32::MIN,
            -end - 1,
            -end,
            -end + 1,
            -1,
            0,
            end - 1,
            end,
            end + 1,
            i32::MAX,
        ];
        for samples in all.iter().flat_map(|&x| all.map(|y| [x, y])) {
            let outputs = both.run(&netlist, &samples, &[1; 3]);
            let expected = samples.iter().all(fits).then(|| matrix.times(&samples));
            assert_eq!(outputs, expected);
            both.run(&netlist, &samples, &[1; 2]);
            both.run(&netlist, &samples[1..], &[1; 2]);
        }
    }
    both.assert_run(&[0, 15, 16, 21], 17);
}

/// A matrix that has a plain netlist for samples of so many bits, and that netlist.
fn matrix_and_plain_netlist(random: &mut Random, width: u8) -> (Matrix, Vec<u8>) {
    loop {
        let matrix = any_matrix(random, 8, 8);
        if let Some(plain) = plain_netlist(random, width, &matrix) {
            return (matrix, plain);
        }
    }
}

/// Netlists that compute the matrix from binary digits: check accepts what compile would not write.
#[test]
fn plain_netlists() {
    let mut both = Both::default();
    each(3_000_000, 10_000, |random| {
        let width = random.sample_width();
        let (matrix, plain) = matrix_and_plain_netlist(random, width);
        assert!(both.check(&matrix.record(), &plain));
        let samples = random.samples(width, matrix.n());
        let outputs = both.run(&plain, &samples, &vec![1; matrix.m()]);
        assert_eq!(outputs, Some(matrix.times(&samples)));
    });
    both.assert_check(&[0], 10_000);
}

/// Around 504 operations, the most that a head may say.
#[test]
fn longest_netlists() {
    let mut both = Both::default();
    each(4_000_000, 1_000, |random| {
        let matrix = any_matrix(random, 8, 8);
        let operations = random.choose(&[500, 503, 504, 504, 505, 506]);
        let (m, n, width) = (matrix.m(), matrix.n(), random.sample_width());
        let long = any_netlist(random, width, m, n, operations);
        all_calls(&mut both, random, &matrix, &long);
        let damaged = damage(random, &long, &long);
        all_calls(&mut both, random, &matrix, &damaged);
    });
    both.assert_read(&READ, 10);
}

/// Every byte of some netlists set to every value.
#[test]
fn every_byte_changed() {
    let mut both = Both::default();
    each(5_000_000, 12, |random| {
        let matrix = any_matrix(random, 2, 3);
        let right = netlist(random, &matrix);
        for changed in each_change_of_a_byte(&right).take(200 * 256) {
            all_calls(&mut both, random, &matrix, &changed);
        }
    });
    both.assert_read(&[0, 7, 8, 9, 10, 11], 500);
}

#[test]
fn every_length() {
    let mut both = Both::default();
    each(6_000_000, 400, |random| {
        let matrix = any_bank(random, 3, 3);
        let mut bytes = netlist(random, &matrix);
        bytes.extend(random.bytes(8));
        for length in 0..bytes.len() {
            all_calls(&mut both, random, &matrix, &bytes[..length]);
        }
    });
    both.assert_read(&[0, 7, 10, 12], 100);
}

#[test]
fn random_bytes() {
    let mut both = Both::default();
    each(7_000_000, 50_000, |random| {
        let matrix = any_bank(random, 2, 2);
        let count = random.between(0, 60);
        let mut bytes = random.bytes(count);
        if random.once_in(2) && count >= 2 {
            bytes[1] = 0; // else nearly every length exceeds what remains
        }
        all_calls(&mut both, random, &matrix, &bytes);
    });
    both.assert_read(&[7, 8], 1_000);
}

/// Records of the right kinds and lengths, now and then of others, with random bytes in them.
#[test]
fn random_records() {
    let mut both = Both::default();
    each(10_000_000, 100_000, |random| {
        let matrix = any_bank(random, 2, 2);
        let operations = random.between(0, 3) as u8;
        let (m, n) = (matrix.m() as u8, matrix.n() as u8);
        let mut bytes = vec![8, 0, 2, 0, m, n, operations, 0];
        if random.once_in(2) {
            bytes.push(random.sample_width());
            (bytes[0], bytes[2]) = (9, 6);
        }
        for (kind, length) in [(3, 12), (4, 9), (5, 8)] {
            let count = [operations, m, 1][kind - 3];
            for _ in 0..count {
                let length = length + usize::from(random.once_in(20));
                bytes.extend([
                    length as u8,
                    0,
                    kind as u8 + u8::from(random.once_in(20)),
                    0,
                ]);
                bytes.extend((4..length).map(|_| random.byte() % 3 * (random.byte() % 9)));
            }
        }
        all_calls(&mut both, random, &matrix, &bytes);
    });
    both.assert_read(&[0, 8, 9, 10, 11], 1); // 0 where there are no rows
}
