//! Registers and clock: netlists of compile, deep ones and damaged ones, for samples of all widths; lists and stores of all
//! lengths. Besides what both sides give, the request's own sentence: a clock's outputs are run's for the vector of depth clocks
//! before, or zero.

use cases::{
    any_bank, any_list, any_matrix, any_netlist, bank, damage_netlist, deep_netlist, each,
    each_change_of_a_byte, other_heads, waiting_netlist, Matrix, Met, Random,
};

use crate::both::{old_numbers, Both};
use crate::netlists::{compiled, netlist, READ};

/// What clock may answer to any bytes.
const CLOCK: [u8; 11] = [0, 6, 7, 8, 9, 10, 11, 12, 15, 16, 21];

/// What a list through a netlist needs.
struct Needs {
    m: usize,
    n: usize,
    depth: usize,
    width: u8,
    registers: usize,
}

/// None where the netlist is refused.
fn needs(netlist: &[u8]) -> Option<Needs> {
    let read = reference::read(netlist).ok()?;
    Some(Needs {
        m: read.m.into(),
        n: read.n.into(),
        depth: read.depth.into(),
        width: reference::sample_width(netlist).ok()?,
        registers: reference::registers(netlist).ok()?,
    })
}

/// Clocks so many vectors of any list, on a store that suffices, mostly one that just does, and compares the outputs with run's.
fn clock_list(both: &mut Both, random: &mut Random, netlist: &[u8], clocks: usize) {
    let needs = needs(netlist).unwrap();
    assert_eq!(both.registers(netlist), Some(needs.registers));
    let samples = any_list(random, needs.width, needs.n, clocks);
    let more = random.choose(&[0, 0, 1, 9]);
    let store = old_numbers(random, needs.registers + more);
    let outputs = old_numbers(random, needs.m * clocks);
    let filled = both.clock(netlist, &samples, &store, &outputs).unwrap();

    let (zeros, later) = filled.split_at(needs.m * needs.depth.min(clocks));
    assert!(zeros.iter().all(|&output| output == 0));
    let vectors = samples.chunks_exact(needs.n.max(1));
    for (vector, values) in vectors.zip(later.chunks_exact(needs.m.max(1))) {
        let expected = both.run(netlist, vector, &vec![1; needs.m]);
        assert_eq!(Some(values), expected.as_deref());
    }
}

/// A number of clocks around the depth.
fn clocks_around(random: &mut Random, netlist: &[u8]) -> usize {
    let depth = needs(netlist).map_or(0, |needs| needs.depth);
    let more = random.between(0, 12);
    random.choose(&[0, 1, depth, depth + 1, depth + more, depth + more])
}

/// Registers and clock on right and wrong numbers of registers, samples and outputs, and samples that fit or do not. A netlist that
/// is refused may get anything.
fn any_call(both: &mut Both, random: &mut Random, netlist: &[u8]) {
    both.registers(netlist);
    let (m, n, width, total) = match needs(netlist) {
        Some(needs) => (needs.m, needs.n, needs.width, needs.registers),
        None => (2, 2, 16, 3),
    };
    let clocks = random.between(0, 4);
    let (samples, outputs) = (n * clocks, m * clocks);
    let room = random.choose(&[
        total,
        total,
        total + 1,
        total.saturating_sub(1),
        0,
        total + 7,
    ]);
    let samples = random.choose(&[samples, samples, samples, samples + 1, n + 1, 1]);
    let outputs = random.choose(&[outputs, outputs, outputs, outputs + 1, m, 0]);
    let samples = random.near_samples(width, samples);
    let (store, outputs) = (old_numbers(random, room), old_numbers(random, outputs));
    both.clock(netlist, &samples, &store, &outputs);
}

#[test]
fn compiled_banks_of_every_width() {
    let mut both = Both::default();
    each(37_000_000, 100, |random| {
        for width in 8..=24 {
            let matrix = any_bank(random, 8, 8);
            let netlist = compiled(&matrix, width);
            let clocks = clocks_around(random, &netlist);
            clock_list(&mut both, random, &netlist, clocks);
            any_call(&mut both, random, &netlist);
        }
    });
    both.assert_registers(&[0], 2 * 17 * 100);
    both.assert_clock(&[0, 6, 15, 16, 21], 17);
}

#[test]
fn largest_banks() {
    let mut both = Both::default();
    each(38_000_000, 100, |random| {
        let (matrix, width) = (bank(random, 8, 8, 16), random.sample_width());
        let netlist = compiled(&matrix, width);
        let clocks = clocks_around(random, &netlist);
        clock_list(&mut both, random, &netlist, clocks);
    });
    both.assert_clock(&[0], 100);
}

/// Those of compile and others, whose widths may exceed what is read.
#[test]
fn right_netlists() {
    let mut both = Both::default();
    each(39_000_000, 10_000, |random| {
        let matrix = any_matrix(random, 8, 8);
        let netlist = netlist(random, &matrix);
        if needs(&netlist).is_some() {
            let clocks = clocks_around(random, &netlist);
            clock_list(&mut both, random, &netlist, clocks);
        }
        any_call(&mut both, random, &netlist);
    });
    both.assert_registers(&[0, 10], 50);
    both.assert_clock(&[0, 6, 10, 15, 16, 21], 50);
}

/// Every depth from 0 to 20, and larger ones.
#[test]
fn netlists_of_every_depth() {
    let (mut both, mut depths) = (Both::default(), Met::default());
    each(40_000_000, 25_000, |random| {
        let (m, n) = (random.between(1, 8), random.between(1, 8));
        let (width, most) = (random.sample_width(), random.choose(&[4, 12, 40, 60]));
        let operations = random.between(0, most);
        let netlist = deep_netlist(random, width, m, n, operations);
        depths.count(needs(&netlist).unwrap().depth.min(21) as u8);
        let clocks = clocks_around(random, &netlist);
        clock_list(&mut both, random, &netlist, clocks);
        any_call(&mut both, random, &netlist);
    });
    depths.assert_exactly("depths", &Vec::from_iter(0..=21), 50);
    both.assert_clock(&[0, 6, 15, 16, 21], 500);
}

/// Around 504 operations, the most that a head may say, deep ones and others.
#[test]
fn longest_netlists() {
    let mut both = Both::default();
    each(41_000_000, 60, |random| {
        let (m, n) = (random.between(1, 8), random.between(1, 8));
        let operations = random.choose(&[400, 503, 504, 504, 505]);
        let width = random.sample_width();
        let deep = deep_netlist(random, width, m, n, operations);
        let other = any_netlist(random, width, m, n, operations);
        for netlist in [deep, other] {
            if let Some(needs) = needs(&netlist) {
                let clocks = needs.depth + random.between(0, 12);
                clock_list(&mut both, random, &netlist, clocks);
            }
            any_call(&mut both, random, &netlist);
        }
    });
    both.assert_registers(&[0, 9, 10], 2);
}

/// Values wait for up to 504 clocks, and the store has up to 64,260 registers: one for each operation, 504 for the input, which is
/// an output, and as many as an operation reaches back for each that is taken so late.
#[test]
fn longest_delays() {
    let mut both = Both::default();
    let mut random = Random::new(42);
    for (back, width) in [(1, 8), (2, 24), (100, 16), (251, 16), (503, 24)] {
        let netlist = waiting_netlist(width, 504, back);
        let total = both.registers(&netlist);
        assert_eq!(total, Some(504 + 504 + (503 - back) * back));
        clock_list(&mut both, &mut random, &netlist, 520);
    }
    both.assert_clock(&[0], 5);
}

#[test]
fn long_lists() {
    let mut both = Both::default();
    each(42_000_000, 10, |random| {
        let (matrix, width) = (any_matrix(random, 3, 3), random.sample_width());
        clock_list(&mut both, random, &compiled(&matrix, width), 10_000);
    });
    both.assert_clock(&[0], 10);
}

#[test]
fn stores_of_every_length() {
    let mut both = Both::default();
    each(43_000_000, 300, |random| {
        let (m, n) = (random.between(1, 3), random.between(1, 3));
        let (width, operations) = (random.sample_width(), random.between(0, 6));
        let netlist = deep_netlist(random, width, m, n, operations);
        let total = both.registers(&netlist).unwrap();
        for room in 0..=total + 3 {
            let samples = any_list(random, width, n, 2);
            let store = old_numbers(random, room);
            let filled = both.clock(&netlist, &samples, &store, &vec![5; 2 * m]);
            assert_eq!(filled.is_some(), room >= total);
            let cleared = both.clock(&netlist, &[], &store, &[]);
            assert_eq!(cleared.is_some(), room >= total);
        }
    });
    both.assert_clock(&[0, 6], 500);
}

/// Every number of samples with every number of outputs, up to those of three vectors and one more.
#[test]
fn lists_of_every_length() {
    let mut both = Both::default();
    each(44_000_000, 250, |random| {
        let matrix = any_bank(random, 4, 4);
        let (m, n, width) = (matrix.m(), matrix.n(), random.sample_width());
        let netlist = compiled(&matrix, width);
        let total = both.registers(&netlist).unwrap();
        for (samples, outputs) in
            (0..=3 * n + 1).flat_map(|samples| (0..=3 * m + 1).map(move |count| (samples, count)))
        {
            let list = random.samples(width, samples);
            let store = old_numbers(random, total + 1);
            let filled = both.clock(&netlist, &list, &store, &vec![5; outputs]);
            let right = match n {
                0 => (samples, outputs) == (0, 0),
                _ => samples % n == 0 && outputs == samples / n * m,
            };
            assert_eq!(filled.is_some(), right);
        }
    });
    both.assert_clock(&[0, 15, 16], 500);
}

/// At each width, and at each place of a list, a sample that is at an end, one past it or far past it; then all behind it far past
/// it too.
#[test]
fn samples_at_the_ends() {
    let mut both = Both::default();
    let matrix = Matrix::of_rows(&[&[257, -257], &[-1, -1], &[0, 0]]);
    for width in 8..=24 {
        let netlist = compiled(&matrix, width);
        let total = both.registers(&netlist).unwrap();
        let end = 1 << (width - 1);
        for (place, sample) in (0..8).flat_map(|place| {
            let samples = [i32::MIN, -end - 1, -end, end - 1, end, i32::MAX];
            samples.map(move |sample| (place, sample))
        }) {
            let fits = (-end..end).contains(&sample);
            let mut list = vec![1 - end; 8];
            list[place] = sample;
            let filled = both.clock(&netlist, &list, &vec![3; total], &[5; 12]);
            assert_eq!(filled.is_some(), fits);
            list[place + 1..].fill(i32::MAX);
            let filled = both.clock(&netlist, &list, &vec![3; total], &[5; 12]);
            assert_eq!(filled.is_some(), fits && place == 7);
            both.clock(&netlist, &list, &vec![3; total], &[5; 11]);
        }
    }
    both.assert_clock(&[0, 16, 21], 17);
}

/// Of a netlist, a store, numbers of samples and outputs and a sample each is right or wrong: the first that is wrong decides.
#[test]
fn first_refusal_decides() {
    let mut both = Both::default();
    let matrix = Matrix::of_rows(&[&[3, -3], &[-1, 0]]);
    let right = compiled(&matrix, 12);
    let total = both.registers(&right).unwrap();
    for wrong in 0..32u8 {
        let is_wrong = |test: u8| wrong >> test & 1 == 1;
        let mut netlist = right.clone();
        netlist.extend(is_wrong(0).then_some(0));
        let store = vec![7; total - usize::from(is_wrong(1))];
        let mut samples = vec![9; 4 + usize::from(is_wrong(2))];
        let outputs = vec![7; 4 + usize::from(is_wrong(3))];
        samples[3] = if is_wrong(4) { 2_048 } else { 2_047 };
        let filled = both.clock(&netlist, &samples, &store, &outputs);
        assert_eq!(filled.is_some(), wrong == 0);

        let expected = (0..5).find(|&test| is_wrong(test));
        let expected = expected.map_or(0, |test| [12, 6, 15, 16, 21][usize::from(test)]);
        let answer =
            zaatarloft::clock(&netlist, &samples, &mut store.clone(), &mut outputs.clone());
        assert_eq!(
            answer.map_or_else(|refusal| refusal.number, |()| 0),
            expected
        );
    }
    both.assert_clock(&[0, 6, 12, 15, 16, 21], 1);
}

#[test]
fn damaged_netlists() {
    let mut both = Both::default();
    each(45_000_000, 40_000, |random| {
        let (matrix, other) = (any_bank(random, 4, 4), any_bank(random, 4, 4));
        let right = netlist(random, &matrix);
        let spliced = netlist(random, &other);
        let damaged = damage_netlist(random, &right, &spliced);
        any_call(&mut both, random, &damaged);
    });
    both.assert_registers(&READ, 500);
    both.assert_clock(&CLOCK, 30);
}

/// Netlists for samples of every width, with heads of both kinds damaged in each byte.
#[test]
fn other_heads_of_every_width() {
    let mut both = Both::default();
    each(46_000_000, 5, |random| {
        for width in 8..=24 {
            let matrix = any_bank(random, 3, 3);
            for head in other_heads(&compiled(&matrix, width)) {
                any_call(&mut both, random, &head);
            }
        }
    });
    both.assert_registers(&[0, 7, 8, 9, 10, 11], 1);
}

/// Every byte of some netlists set to every value: operands of other symbols, so other delays, shifts, signs, outputs.
#[test]
fn every_byte_changed() {
    let mut both = Both::default();
    each(47_000_000, 2, |random| {
        let operations = random.between(1, 4);
        let right = deep_netlist(random, 16, 2, 2, operations);
        for changed in each_change_of_a_byte(&right) {
            any_call(&mut both, random, &changed);
        }
    });
    both.assert_registers(&[0, 7, 8, 9, 10, 11], 10);
}

/// Cut off at every place, and with bytes behind them.
#[test]
fn every_length() {
    let mut both = Both::default();
    each(48_000_000, 120, |random| {
        let matrix = any_bank(random, 3, 3);
        let mut bytes = compiled(&matrix, random.sample_width());
        bytes.extend(random.bytes(8));
        for length in 0..bytes.len() {
            any_call(&mut both, random, &bytes[..length]);
        }
    });
    both.assert_registers(&[0, 7, 12], 100);
}
