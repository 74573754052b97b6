//! The bank of no rows: no bytes as a matrix, matrix records and heads beside it, and what its netlist becomes with a byte changed, left
//! out or added.

use std::{env, fs, process};

use cases::Matrix;

use crate::both::Both;

/// A head with m, n and operations 0, then totals of 0.
const NETLIST: [u8; 16] = [8, 0, 2, 0, 0, 0, 0, 0, 8, 0, 5, 0, 0, 0, 0, 0];

/// The same for samples of so many bits.
fn netlist_of_width(width: u8) -> Vec<u8> {
    match width {
        16 => NETLIST.to_vec(),
        _ => [&[9, 0, 6, 0, 0, 0, 0, 0, width], &NETLIST[8..]].concat(),
    }
}

#[test]
fn buffers_of_every_length() {
    let mut both = Both::default();
    for (width, room) in (8..=24).flat_map(|width| (0..=40).map(move |room| (width, room))) {
        let netlist = both.compile(&[], width, &vec![0xA5; room]);
        let expected = netlist_of_width(width);
        assert_eq!(netlist, (room >= expected.len()).then_some(expected));
    }
    both.assert_compile(&[0, 6], 17 * 16);
}

#[test]
fn modules_in_buffers_of_every_length() {
    let mut both = Both::default();
    for (width, room) in (8..=24).flat_map(|width| (0..=40).map(move |room| (width, room))) {
        let text = both.write_verilog(&netlist_of_width(width), &vec![0xA5; room]);
        let expected = b"module bank ();\nendmodule\n".to_vec();
        assert_eq!(text, (room >= expected.len()).then_some(expected));
    }
    both.assert_verilog(&[0, 6], 17 * 15);
}

/// No vector has any number of samples; no register is cleared, however many are lent.
#[test]
fn lists_of_every_length() {
    let mut both = Both::default();
    for (width, samples) in (8..=24).flat_map(|width| (0..=10).map(move |count| (width, count))) {
        let netlist = netlist_of_width(width);
        assert_eq!(both.registers(&netlist), Some(0));
        for (outputs, room) in (0..=10).flat_map(|count| (0..=2).map(move |room| (count, room))) {
            let (store, outputs) = (vec![3; room], vec![-1; outputs]);
            let filled = both.clock(&netlist, &vec![1; samples], &store, &outputs);
            assert_eq!(filled.is_some(), samples == 0 && outputs.is_empty());
        }
    }
    both.assert_clock(&[0, 15, 16], 17 * 3);
}

/// One to five bytes, and six with every m and n.
#[test]
fn few_bytes() {
    let mut both = Both::default();
    for byte in 0..=255 {
        for length in 1..=5 {
            both.compile(&vec![byte; length], 16, &[0; 40]);
            both.check(&vec![byte; length], &NETLIST);
        }
        for other in 0..=255 {
            both.compile(&[6, 0, 1, 0, byte, other], 24, &[0; 40]);
            both.check(&[6, 0, 1, 0, byte, other], &NETLIST);
        }
    }
    both.assert_compile(&[1, 4, 5], 64);
    both.assert_check(&[1, 4, 5], 64);
}

/// Of these heads, with totals behind them, only that of no rows is taken.
#[test]
fn every_head() {
    let mut both = Both::default();
    for (m, n) in (0..=255).flat_map(|m| (0..=255).map(move |n| (m, n))) {
        for operations in [[0, 0], [1, 0], [0xF8, 1], [0xF9, 1], [0, 255]] {
            for width in [16, 12] {
                let mut netlist = netlist_of_width(width);
                netlist[4..8].copy_from_slice(&[m, n, operations[0], operations[1]]);
                let totals = netlist.len() - 4;
                netlist[totals..totals + 2].copy_from_slice(&operations);
                both.read(&netlist);
                both.check(&[], &netlist);
            }
        }
    }
    both.assert_read(&[0, 8, 9], 2);
    both.assert_check(&[0, 8, 9], 2);
}

/// Every byte of the netlists of two widths set to every value, the netlists cut off, and with a byte behind them.
fn others() -> Vec<Vec<u8>> {
    let mut all = Vec::new();
    for netlist in [16, 20].map(netlist_of_width) {
        let length = netlist.len();
        all.extend((0..length).map(|length| netlist[..length].to_vec()));
        for byte in 0..=255 {
            for place in 0..length {
                let mut changed = netlist.clone();
                changed[place] = byte;
                all.push(changed);
            }
            all.push([&netlist[..], &[byte]].concat());
        }
    }
    all
}

/// Check against no bytes and against a row; run and clock with right and wrong counts, 15 before 16.
#[test]
fn every_byte_changed() {
    let mut both = Both::default();
    let row = Matrix::of_rows(&[&[1]]).record();
    for netlist in others() {
        both.read(&netlist);
        both.sample_width(&netlist);
        both.write_verilog(&netlist, &[0xA5; 26]);
        both.write_verilog(&netlist, &[0xA5; 25]);
        both.registers(&netlist);
        for (samples, outputs) in [(0, 0), (0, 1), (1, 0), (1, 1), (8, 8)] {
            both.clock(&netlist, &vec![1; samples], &[], &vec![-1; outputs]);
        }
        both.check(&[], &netlist);
        both.check(&row, &netlist);
        for samples in 0..=10 {
            for outputs in 0..=10 {
                both.run(&netlist, &vec![1; samples], &vec![-1; outputs]);
            }
        }
    }
    both.assert_read(&[0, 7, 8, 9, 11, 12], 16);
    both.assert_sample_width(&[0, 7, 8, 9, 11, 12], 16);
    both.assert_verilog(&[0, 6, 7, 8, 9, 11, 12], 16);
    both.assert_registers(&[0, 7, 8, 9, 11, 12], 16);
    both.assert_clock(&[0, 7, 8, 9, 11, 12, 15, 16], 16);
    both.assert_check(&[0, 7, 8, 9, 11, 12, 13], 16);
    both.assert_run(&[0, 7, 8, 9, 11, 12, 15, 16], 16);
}

/// The netlist of no rows with a matrix that has rows, and the reverse.
#[test]
fn rows_beside_no_rows() {
    let mut both = Both::default();
    for (m, n) in (1..=8).flat_map(|m| (1..=8).map(move |n| (m, n))) {
        let rows = vec![vec![0; n]; m];
        let record = Matrix { rows }.record();
        for width in [16, 8] {
            let netlist = both.compile(&record, width, &[0; 100]).unwrap();
            both.check(&record, &netlist_of_width(width));
            both.check(&[], &netlist);
        }
    }
    both.assert_check(&[13], 256);
}

/// What a host has in hand where there is nothing: a slice, a new vector, an empty file.
#[test]
fn nothing_in_hand() {
    let path = env::temp_dir().join(format!("zaatarloft-no-rows-{}", process::id()));
    fs::write(&path, []).unwrap();
    let file = fs::read(&path).unwrap();
    fs::remove_file(&path).unwrap();

    for matrix in [&[][..], &Vec::new()[..], &file[..]] {
        let mut buffer = vec![0; 16];
        let compiled = zaatarloft::compile(matrix, 16, &mut buffer).unwrap();
        assert_eq!((compiled.written, &buffer[..]), (16, &NETLIST[..]));
        assert_eq!(zaatarloft::check(matrix, &buffer), Ok(()));
        assert_eq!(zaatarloft::run(&buffer, &[], &mut []), Ok(()));
        let ran = zaatarloft::run(&buffer, &Vec::new(), &mut Vec::new());
        assert_eq!(ran, Ok(()));

        let number = |refusal: zaatarloft::Refusal| refusal.number;
        let compiled = zaatarloft::compile(matrix, 16, &mut Vec::new());
        assert_eq!(compiled.map(drop).map_err(number), Err(6));
        assert_eq!(zaatarloft::read(matrix).map(drop).map_err(number), Err(7));
        assert_eq!(zaatarloft::sample_width(matrix).map_err(number), Err(7));
        let written = zaatarloft::write_verilog(matrix, &mut Vec::new());
        assert_eq!(written.map_err(number), Err(7));
        let written = zaatarloft::write_verilog(&buffer, &mut Vec::new());
        assert_eq!(written.map_err(number), Err(6));
        assert_eq!(zaatarloft::registers(matrix).map_err(number), Err(7));
        assert_eq!(zaatarloft::registers(&buffer), Ok(0));
        let clocked = zaatarloft::clock(matrix, &[], &mut Vec::new(), &mut Vec::new());
        assert_eq!(clocked.map_err(number), Err(7));
        let clocked = zaatarloft::clock(&buffer, &[], &mut Vec::new(), &mut Vec::new());
        assert_eq!(clocked, Ok(()));
        let stepped = zaatarloft::step(matrix, 0);
        assert_eq!(stepped.map(drop).map_err(number), Err(7));
    }
}
