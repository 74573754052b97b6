//! Cases of read and check: the lengths of record and netlist, then both. Printed are the answers of read, check and sample_width, one a
//! line.

use cases::{filled, Matrix};
use reference::returned;

use crate::case::{Call, Case};
use crate::matrices::{matrices, netlist, netlist_at, no_rows, refused_records, three_minus_three};
use crate::netlists::{damaged, handmade, Pair};
use crate::widths::{banks_and_widths, WIDTHS};

pub fn cases() -> Vec<Case> {
    let pairs = [
        compiled(),
        handmade(),
        damaged(),
        without_rows(),
        of_other_widths(),
    ];
    pairs.concat().iter().map(case).collect()
}

/// Netlists that compile writes, with their own and with other matrix records.
fn compiled() -> Vec<Pair> {
    let records: Vec<Vec<u8>> = matrices().iter().map(Matrix::record).collect();
    let mut all = Vec::new();
    for record in &records {
        all.push((record.clone(), netlist(record)));
    }
    for (record, other) in records.iter().zip(&records[1..]) {
        all.push((record.clone(), netlist(other))); // 13 and 14
    }
    let right = netlist(&three_minus_three().record());
    all.extend(
        refused_records()
            .into_iter()
            .map(|record| (record, right.clone())),
    );
    all
}

/// The bank of no rows with its own netlist, with records that are refused, and beside banks that have rows.
fn without_rows() -> Vec<Pair> {
    let none = no_rows().record();
    let mut all = vec![(none.clone(), netlist(&none))];
    for record in refused_records() {
        all.push((record, netlist(&none)));
    }
    for matrix in [
        filled(1, 1, || 0),
        filled(1, 1, || 1),
        three_minus_three(),
        filled(8, 8, || 0),
    ] {
        let record = matrix.record();
        all.push((none.clone(), netlist(&record))); // 13
        all.push((record, netlist(&none))); // 13
    }
    all
}

/// Netlists that compile writes for samples of other widths, with their own and with other matrix records: the width decides nothing.
fn of_other_widths() -> Vec<Pair> {
    let mut all = Vec::new();
    for (matrix, width) in banks_and_widths() {
        let record = matrix.record();
        let netlist = netlist_at(width, &record);
        all.push((record, netlist));
    }
    let other = Matrix::of_rows(&[&[3, -2]]).record();
    for width in WIDTHS {
        let netlist = |matrix: Matrix| netlist_at(width, &matrix.record());
        all.push((other.clone(), netlist(three_minus_three()))); // 14
        all.push((other.clone(), netlist(no_rows()))); // 13
        all.push((no_rows().record(), netlist(three_minus_three()))); // 13
        for record in refused_records() {
            all.push((record, netlist(three_minus_three())));
        }
    }
    all
}

fn case((record, netlist): &Pair) -> Case {
    let answer = reference::read(netlist);
    let (number, place) = returned(&answer);
    let read = answer.unwrap_or_default();
    let mut printed = format!(
        "read {number} {place} {} {} {} {}\n",
        read.m, read.n, read.operations, read.depth
    );
    let (number, place) = returned(&reference::check(record, netlist));
    printed.push_str(&format!("check {number} {place}\n"));
    let answer = reference::sample_width(netlist);
    let (number, place) = returned(&answer);
    let width = answer.unwrap_or_default();
    printed.push_str(&format!("width {number} {place} {width}\n"));
    let bytes = [&record[..], netlist].concat();
    Case::of_call(Call::Check, [record.len(), netlist.len()], &bytes, printed)
}
