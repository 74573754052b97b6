//! Write Verilog: netlists of compile, others that are right, and damaged ones, for samples of all widths; buffers of all lengths.

use cases::{
    any_bank, any_matrix, any_netlist, bank, damage_netlist, each, each_change_of_a_byte,
    other_heads, Random,
};

use crate::both::{old_bytes, Both};
use crate::netlists::{compiled, netlist, READ};

/// The bytes that suffice for every text.
const ROOM: usize = zaatarloft::VERILOG_BYTES;

/// The length of a netlist's text; 0 where the netlist is refused.
fn text_length(netlist: &[u8]) -> usize {
    reference::write_verilog(netlist, &mut [0; ROOM]).unwrap_or(0)
}

/// Writes into a buffer that suffices, mostly one that just does.
fn write(both: &mut Both, random: &mut Random, netlist: &[u8]) -> Option<Vec<u8>> {
    let length = text_length(netlist);
    let more = random.between(0, 40);
    let room = random.choose(&[length, length + 1, length + more]);
    let room = if random.once_in(50) { ROOM } else { room };
    let old = old_bytes(random, room);
    both.write_verilog(netlist, &old)
}

/// Writes into a buffer that is shorter than the text, unless the netlist is refused.
fn write_short(both: &mut Both, random: &mut Random, netlist: &[u8]) {
    let most = text_length(netlist).saturating_sub(1);
    let less = random.between(0, most);
    let room = random.choose(&[most, less, 0]);
    let old = old_bytes(random, room);
    assert_eq!(both.write_verilog(netlist, &old), None);
}

/// Each text has a line for each port, two for each operation, one for each output, and three more; without ports two in all.
#[test]
fn compiled_banks_of_every_width() {
    let mut both = Both::default();
    each(27_000_000, 200, |random| {
        for width in 8..=24 {
            let matrix = any_bank(random, 8, 8);
            let netlist = compiled(&matrix, width);
            let text = write(&mut both, random, &netlist).unwrap();
            let read = both.read(&netlist).unwrap();
            let (m, n) = (usize::from(read.m), usize::from(read.n));
            let lines = match m {
                0 => 2,
                _ => n + m + 2 * usize::from(read.operations) + m + 3,
            };
            assert_eq!(text.iter().filter(|&&byte| byte == b'\n').count(), lines);
            write_short(&mut both, random, &netlist);
        }
    });
    both.assert_verilog(&[0, 6], 17 * 200);
}

#[test]
fn largest_banks() {
    let mut both = Both::default();
    each(28_000_000, 150, |random| {
        let (matrix, width) = (bank(random, 8, 8, 16), random.sample_width());
        let netlist = compiled(&matrix, width);
        assert!(write(&mut both, random, &netlist).is_some());
        write_short(&mut both, random, &netlist);
    });
    both.assert_verilog(&[0, 6], 150);
}

/// Those of compile and others, whose widths may exceed what is read.
#[test]
fn right_netlists() {
    let mut both = Both::default();
    each(29_000_000, 8_000, |random| {
        let matrix = any_matrix(random, 8, 8);
        let netlist = netlist(random, &matrix);
        write(&mut both, random, &netlist);
        write_short(&mut both, random, &netlist);
    });
    both.assert_verilog(&[0, 6, 10], 100);
}

/// Around 504 operations, the most that a head may say: so many bytes suffice for these too.
#[test]
fn longest_netlists() {
    let mut both = Both::default();
    each(30_000_000, 400, |random| {
        let (m, n) = (random.between(1, 8), random.between(1, 8));
        let operations = random.choose(&[500, 503, 504, 504, 505]);
        let width = random.sample_width();
        let netlist = any_netlist(random, width, m, n, operations);
        let text = both.write_verilog(&netlist, &[0xA5; ROOM]);
        assert_eq!(text.is_some(), reference::read(&netlist).is_ok());
        write_short(&mut both, random, &netlist);
    });
    both.assert_verilog(&[0, 6, 9, 10], 20);
}

#[test]
fn buffers_of_every_length() {
    let mut both = Both::default();
    each(31_000_000, 60, |random| {
        let matrix = any_bank(random, 3, 3);
        let netlist = compiled(&matrix, random.sample_width());
        let length = text_length(&netlist);
        for room in 0..=length + 3 {
            let old = old_bytes(random, room);
            let text = both.write_verilog(&netlist, &old);
            assert_eq!(text.is_some(), room >= length);
        }
    });
    both.assert_verilog(&[0, 6], 4 * 60);
}

/// Read's refusals come before 6.
#[test]
fn damaged_netlists() {
    let mut both = Both::default();
    each(32_000_000, 60_000, |random| {
        let (matrix, other) = (any_bank(random, 4, 4), any_bank(random, 4, 4));
        let right = netlist(random, &matrix);
        let spliced = netlist(random, &other);
        let damaged = damage_netlist(random, &right, &spliced);
        write(&mut both, random, &damaged);
        write_short(&mut both, random, &damaged);
    });
    both.assert_verilog(&[&READ[..], &[6]].concat(), 500);
}

/// Netlists for samples of every width, with heads of both kinds damaged in each byte.
#[test]
fn other_heads_of_every_width() {
    let mut both = Both::default();
    each(33_000_000, 5, |random| {
        for width in 8..=24 {
            let matrix = any_bank(random, 3, 3);
            for head in other_heads(&compiled(&matrix, width)) {
                write(&mut both, random, &head);
            }
        }
    });
    both.assert_verilog(&[0, 7, 8, 9, 10], 10);
}

/// Every byte of some netlists set to every value.
#[test]
fn every_byte_changed() {
    let mut both = Both::default();
    each(34_000_000, 6, |random| {
        let matrix = any_matrix(random, 2, 3);
        let right = netlist(random, &matrix);
        for changed in each_change_of_a_byte(&right).take(200 * 256) {
            write(&mut both, random, &changed);
        }
    });
    both.assert_verilog(&[0, 7, 8, 9, 10, 11], 100);
}

/// Cut off at every place, and with bytes behind them.
#[test]
fn every_length() {
    let mut both = Both::default();
    each(35_000_000, 200, |random| {
        let matrix = any_bank(random, 3, 3);
        let mut bytes = compiled(&matrix, random.sample_width());
        let end = bytes.len();
        bytes.extend(random.bytes(8));
        for length in 0..bytes.len() {
            let text = write(&mut both, random, &bytes[..length]);
            assert_eq!(text.is_some(), length == end);
        }
    });
    both.assert_verilog(&[0, 7, 12], 200);
}
