//! Generate: all sizes, buffers of all lengths, many seeds; and what becomes of the matrix record.

use std::collections::BTreeSet;

use cases::{each, Random};

use crate::both::{old_bytes, Both};

/// The bytes that suffice for every matrix record, and for every netlist.
const RECORD: usize = zaatarloft::MATRIX_BYTES;
const NETLIST: usize = zaatarloft::NETLIST_BYTES;

/// A size within the limits.
fn size(random: &mut Random) -> (u8, u8) {
    (random.between(1, 8) as u8, random.between(1, 8) as u8)
}

#[test]
fn every_size() {
    let mut both = Both::default();
    each(14_000_000, 5, |random| {
        for m in 0..=255 {
            for n in 0..=255 {
                let room = random.choose(&[0, 7, RECORD, RECORD + 10]);
                let old = old_bytes(random, room);
                both.generate(m, n, random.number() as u32, &old);
            }
        }
    });
    both.assert_generate(&[0, 4, 6], 50);
}

/// Around the limits, with too little and with more than enough room.
#[test]
fn buffers_of_every_length() {
    let mut both = Both::default();
    each(15_000_000, 20, |random| {
        let sizes = || (0..=9).chain([255]);
        for (m, n) in sizes().flat_map(|m| sizes().map(move |n| (m, n))) {
            let length = 6 + 2 * usize::from(m) * usize::from(n);
            let within = (1..=8).contains(&m) && (1..=8).contains(&n);
            for room in 0..=length.min(200) + 3 {
                let old = old_bytes(random, room);
                let record = both.generate(m, n, random.number() as u32, &old);
                assert_eq!(record.is_some(), within && room >= length);
            }
        }
    });
    both.assert_generate(&[0, 4, 6], 5_000);
}

/// Small seeds, those near 2^32, and random ones.
fn seeds(random: &mut Random) -> BTreeSet<u32> {
    let small = 0..20_000;
    let high = small.clone().map(|seed| u32::MAX - seed);
    let others = (0..100_000).map(|_| random.number() as u32);
    small.chain(high).chain(others).collect()
}

#[test]
fn many_seeds() {
    let mut both = Both::default();
    let mut random = Random::new(2);
    for seed in seeds(&mut random) {
        let (m, n) = size(&mut random);
        let room = RECORD + random.between(0, 3);
        let old = old_bytes(&mut random, room);
        both.generate(m, n, seed, &old);
    }
    both.assert_generate(&[0], 130_000);
}

/// A generated record compiles, and check accepts its netlist.
#[test]
fn generated_banks() {
    let mut both = Both::default();
    each(16_000_000, 400, |random| {
        let (m, n) = size(random);
        let old = old_bytes(random, RECORD);
        let seed = random.number() as u32;
        let record = both.generate(m, n, seed, &old).unwrap();
        let (width, old) = (random.sample_width(), vec![0xA5; NETLIST]);
        let netlist = both.compile(&record, width, &old).unwrap();
        assert!(both.check(&record, &netlist));
    });
    both.assert_generate(&[0], 400);
    both.assert_check(&[0], 400);
}
