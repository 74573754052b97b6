//! Step: every place of netlists, damaged netlists and random bytes, and places past the end.

use cases::{any_bank, any_netlist, damage, each};

use crate::both::Both;

#[test]
fn every_place() {
    let mut both = Both::default();
    each(8_000_000, 3_000, |random| {
        let matrix = any_bank(random, 3, 3);
        let operations = random.between(0, 12);
        let width = random.sample_width();
        let right = any_netlist(random, width, matrix.m(), matrix.n(), operations);
        let damaged = damage(random, &right, &matrix.record());
        let count = random.between(0, 40);
        let any = random.bytes(count);
        for bytes in [right, damaged, any, matrix.record()] {
            for place in 0..bytes.len() + 6 {
                both.step(&bytes, place);
            }
            for past in [usize::MAX, usize::MAX - 3, usize::MAX / 2, 1 << 32] {
                both.step(&bytes, past);
            }
        }
    });
    both.assert_step(&[0, 7, 8], 5_000);
}

/// Lengths and kinds whose both bytes count.
#[test]
fn long_records() {
    let mut both = Both::default();
    each(9_000_000, 2_000, |random| {
        let length = random.between(0, 70_000);
        let count = random.choose(&[length, length + 1, length + 300]);
        let mut bytes = random.bytes(count);
        bytes.resize(bytes.len().max(4), 0);
        bytes[..2].copy_from_slice(&(length as u16).to_le_bytes());
        both.step(&bytes, 0);
        both.step(&bytes, bytes.len() - 4);
    });
    both.assert_step(&[0, 7], 100);
}
