//! The functions under the wrappers, as C calls them: what the wrappers hide. Every number of an answer is written, all are 0
//! where it is a refusal.

use cases::{any_bank, any_matrix, any_netlist, damage, damage_head, damage_matrix};
use cases::{damaged_market_file, each, Met, Random};
use reference::returned;
use zaatarloft::raw::{
    zaatarloft_raw_clock, zaatarloft_raw_compile, zaatarloft_raw_generate, zaatarloft_raw_read,
    zaatarloft_raw_read_matrix_market, zaatarloft_raw_registers, zaatarloft_raw_run,
    zaatarloft_raw_sample_width, zaatarloft_raw_step, zaatarloft_raw_write_verilog,
};

use crate::both::old_numbers;

/// A netlist for samples of so many bits, with its m and n.
fn small_netlist(random: &mut Random, width: u8) -> (Vec<u8>, usize, usize) {
    let matrix = any_bank(random, 8, 8);
    let (m, n, operations) = (matrix.m(), matrix.n(), random.between(0, 9));
    (any_netlist(random, width, m, n, operations), m, n)
}

/// The refusal's number and place, the bytes written, and the counts, all of which held another number before.
fn raw_compile(record: &[u8], width: u8, buffer: &mut [u8]) -> ((u8, usize), usize, [u16; 6]) {
    let (mut place, mut written) = (77, 77);
    let mut counts = [77; 6];
    let [operations, plain, divisors, replacements, depth, negated] = &mut counts;
    // SAFETY: all slices are valid for their lengths and distinct, as are the numbers.
    let number = unsafe {
        zaatarloft_raw_compile(
            record.as_ptr(),
            record.len(),
            width,
            buffer.as_mut_ptr(),
            buffer.len(),
            &mut place,
            &mut written,
            operations,
            plain,
            divisors,
            replacements,
            depth,
            negated,
        )
    };
    ((number, place), written, counts)
}

#[test]
fn numbers_of_compile() {
    let mut met = Met::default();
    each(11_000_000, 10_000, |random| {
        let (matrix, other) = (any_bank(random, 3, 3), any_bank(random, 3, 3));
        let record = damage_matrix(random, &matrix.record(), &other.record());
        let (room, width) = (random.between(0, 400), random.any_width());
        let (refusal, written, counts) = raw_compile(&record, width, &mut vec![0; room]);
        met.count(refusal.0);
        let expected = reference::compile(&record, width, &mut vec![0; room]);
        assert_eq!(refusal, returned(&expected));
        let expected = expected.unwrap_or_default();
        let numbers = [
            expected.operations,
            expected.plain,
            expected.divisors,
            expected.replacements,
            expected.depth,
            expected.negated,
        ];
        assert_eq!((written, counts), (expected.written, numbers));
    });
    met.assert_exactly("compile", &[0, 1, 2, 3, 4, 5, 6, 20], 100);
}

#[test]
fn numbers_of_sample_width() {
    let mut met = Met::default();
    each(26_000_000, 20_000, |random| {
        let compiled_for = random.sample_width();
        let (right, _, _) = small_netlist(random, compiled_for);
        let netlist = match random.between(0, 2) {
            0 => damage_head(random, &right),
            1 => damage(random, &right, &right),
            _ => right,
        };
        let (mut place, mut width) = (77, 77);
        let bytes = netlist.as_ptr();
        // SAFETY: the slice is valid for its length, and the numbers are distinct.
        let number =
            unsafe { zaatarloft_raw_sample_width(bytes, netlist.len(), &mut place, &mut width) };
        met.count(number);
        let expected = reference::sample_width(&netlist);
        assert_eq!((number, place), returned(&expected));
        assert_eq!(width, expected.unwrap_or(0));
    });
    met.assert_exactly("sample_width", &[0, 7, 8, 9, 10, 11, 12], 100);
}

#[test]
fn numbers_of_read_and_step() {
    let (mut met, mut stepped) = (Met::default(), Met::default());
    each(12_000_000, 20_000, |random| {
        let width = random.sample_width();
        let (right, _, _) = small_netlist(random, width);
        let netlist = damage(random, &right, &right);
        let (mut place, mut m, mut n, mut operations, mut depth) = (77, 77, 77, 77, 77);
        // SAFETY: the slice is valid for its length, and the numbers are distinct.
        let number = unsafe {
            zaatarloft_raw_read(
                netlist.as_ptr(),
                netlist.len(),
                &mut place,
                &mut m,
                &mut n,
                &mut operations,
                &mut depth,
            )
        };
        met.count(number);
        let expected = reference::read(&netlist);
        assert_eq!((number, place), returned(&expected));
        let expected = expected.map_or((0, 0, 0, 0), |r| (r.m, r.n, r.operations, r.depth));
        assert_eq!((m, n, operations, depth), expected);

        let at = random.between(0, netlist.len() + 3);
        let (mut place, mut kind, mut next) = (77, 77, 77);
        let bytes = netlist.as_ptr();
        // SAFETY: the slice is valid for its length, and the numbers are distinct.
        let number = unsafe {
            zaatarloft_raw_step(bytes, netlist.len(), at, &mut place, &mut kind, &mut next)
        };
        stepped.count(number);
        let expected = reference::step(&netlist, at);
        assert_eq!((number, place), returned(&expected));
        assert_eq!((kind, next), expected.map_or((0, 0), |r| (r.kind, r.next)));
    });
    met.assert_exactly("read", &[0, 7, 8, 9, 10, 11, 12], 100);
    stepped.assert_exactly("step", &[0, 7, 8], 100);
}

/// Run takes any numbers of samples and outputs, also more than any netlist has.
#[test]
fn numbers_of_run() {
    let mut met = Met::default();
    each(13_000_000, 20_000, |random| {
        let width = random.sample_width();
        let (right, m, n) = small_netlist(random, width);
        let netlist = match random.between(0, 2) {
            0 => damage(random, &right, &right),
            _ => right,
        };
        let count = random.choose(&[n, n, n, n + 1, n.saturating_sub(1), 0, 9, 100]);
        let samples = random.near_samples(width, count);
        let count = random.choose(&[m, m, m, m + 1, m.saturating_sub(1), 0, 9, 100]);
        let old: Vec<i64> = (0..count).map(|_| random.number() as i64).collect();
        let mut outputs = old.clone();
        let mut place = 77;
        // SAFETY: all slices are valid for their lengths and distinct.
        let number = unsafe {
            zaatarloft_raw_run(
                netlist.as_ptr(),
                netlist.len(),
                samples.as_ptr(),
                samples.len(),
                outputs.as_mut_ptr(),
                outputs.len(),
                &mut place,
            )
        };
        met.count(number);
        let mut values = old;
        let expected = reference::run(&netlist, &samples, &mut values);
        assert_eq!((number, place), returned(&expected));
        assert_eq!(outputs, values);
    });
    met.assert_exactly("run", &[0, 7, 8, 9, 10, 11, 12, 15, 16, 21], 100);
}

/// A call that writes into a buffer of so many bytes and has the place and the bytes written through references, beside the reference's.
fn compare_written(
    met: &mut Met,
    room: usize,
    call: impl FnOnce(&mut [u8], &mut usize, &mut usize) -> u8,
    reference: impl FnOnce(&mut [u8]) -> Result<usize, reference::Refusal>,
) {
    let mut buffer = vec![0; room];
    let (mut place, mut written) = (77, 77);
    let number = call(&mut buffer, &mut place, &mut written);
    met.count(number);
    let mut contents = vec![0; room];
    let expected = reference(&mut contents);
    assert_eq!(buffer, contents);
    assert_eq!((number, place), returned(&expected));
    assert_eq!(written, expected.unwrap_or(0));
}

#[test]
fn numbers_of_generate() {
    let mut met = Met::default();
    each(17_000_000, 20_000, |random| {
        let (m, n) = (random.between(0, 9) as u8, random.between(0, 9) as u8);
        let seed = random.number() as u32;
        let room = random.between(0, 140);
        let call = |buffer: &mut [u8], place: &mut usize, written: &mut usize| {
            let (start, length) = (buffer.as_mut_ptr(), buffer.len());
            // SAFETY: the slice is valid for its length, and the numbers are distinct.
            unsafe { zaatarloft_raw_generate(m, n, seed, start, length, place, written) }
        };
        compare_written(&mut met, room, call, |buffer| {
            reference::generate(m, n, seed, buffer)
        });
    });
    met.assert_exactly("generate", &[0, 4, 6], 100);
}

#[test]
fn numbers_of_read_matrix_market() {
    let mut met = Met::default();
    each(24_000_000, 20_000, |random| {
        let matrix = any_matrix(random, 3, 3);
        let text = damaged_market_file(random, &matrix);
        let room = random.between(0, 30);
        let call = |buffer: &mut [u8], place: &mut usize, written: &mut usize| {
            let (file, file_length) = (text.as_ptr(), text.len());
            let (start, length) = (buffer.as_mut_ptr(), buffer.len());
            // SAFETY: both slices are valid for their lengths and distinct, as are the numbers.
            unsafe {
                zaatarloft_raw_read_matrix_market(file, file_length, start, length, place, written)
            }
        };
        compare_written(&mut met, room, call, |buffer| {
            reference::read_matrix_market(&text, buffer)
        });
    });
    met.assert_exactly("read_matrix_market", &[0, 4, 6, 17, 18, 19], 500);
}

#[test]
fn numbers_of_write_verilog() {
    let mut met = Met::default();
    each(36_000_000, 20_000, |random| {
        let width = random.sample_width();
        let (right, _, _) = small_netlist(random, width);
        let netlist = match random.between(0, 1) {
            0 => damage(random, &right, &right),
            _ => right,
        };
        let room = random.between(0, 1_500);
        let call = |buffer: &mut [u8], place: &mut usize, written: &mut usize| {
            let (bytes, bytes_length) = (netlist.as_ptr(), netlist.len());
            let (start, length) = (buffer.as_mut_ptr(), buffer.len());
            // SAFETY: both slices are valid for their lengths and distinct, as are the numbers.
            unsafe {
                zaatarloft_raw_write_verilog(bytes, bytes_length, start, length, place, written)
            }
        };
        compare_written(&mut met, room, call, |buffer| {
            reference::write_verilog(&netlist, buffer)
        });
    });
    met.assert_exactly("write_verilog", &[0, 6, 7, 8, 9, 10, 11, 12], 100);
}

#[test]
fn numbers_of_registers() {
    let mut met = Met::default();
    each(49_000_000, 20_000, |random| {
        let width = random.sample_width();
        let (right, _, _) = small_netlist(random, width);
        let netlist = match random.between(0, 1) {
            0 => damage(random, &right, &right),
            _ => right,
        };
        let (mut place, mut registers) = (77, 77);
        let bytes = netlist.as_ptr();
        // SAFETY: the slice is valid for its length, and the numbers are distinct.
        let number =
            unsafe { zaatarloft_raw_registers(bytes, netlist.len(), &mut place, &mut registers) };
        met.count(number);
        let expected = reference::registers(&netlist);
        assert_eq!((number, place), returned(&expected));
        assert_eq!(registers, expected.unwrap_or(0));
    });
    met.assert_exactly("registers", &[0, 7, 8, 9, 10, 11, 12], 100);
}

/// Clock takes any numbers of samples, registers and outputs.
#[test]
fn numbers_of_clock() {
    let mut met = Met::default();
    each(50_000_000, 20_000, |random| {
        let width = random.sample_width();
        let (right, m, n) = small_netlist(random, width);
        let netlist = match random.between(0, 2) {
            0 => damage(random, &right, &right),
            _ => right,
        };
        let clocks = random.between(0, 9);
        let count = random.choose(&[n * clocks, n * clocks, n * clocks, n * clocks + 1, 1, 100]);
        let samples = random.near_samples(width, count);
        let count = random.choose(&[m * clocks, m * clocks, m * clocks, m * clocks + 1, 0, 100]);
        let room = random.choose(&[100, 100, 100, 10, 0]);
        let (old_store, old_outputs) = (old_numbers(random, room), old_numbers(random, count));
        let (mut store, mut outputs) = (old_store.clone(), old_outputs.clone());
        let mut place = 77;
        // SAFETY: all slices are valid for their lengths and distinct.
        let number = unsafe {
            zaatarloft_raw_clock(
                netlist.as_ptr(),
                netlist.len(),
                samples.as_ptr(),
                samples.len(),
                store.as_mut_ptr(),
                store.len(),
                outputs.as_mut_ptr(),
                outputs.len(),
                &mut place,
            )
        };
        met.count(number);
        let (mut left, mut values) = (old_store, old_outputs);
        let expected = reference::clock(&netlist, &samples, &mut left, &mut values);
        assert_eq!((number, place), returned(&expected));
        assert_eq!((store, outputs), (left, values));
    });
    met.assert_exactly("clock", &[0, 6, 7, 8, 9, 10, 11, 12, 15, 16, 21], 100);
}
