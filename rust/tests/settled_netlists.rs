//! The netlists of tests/settled-netlists.txt, whose bytes no longer change: the library writes them for samples of 16 bits, and so
//! does the independent implementation.

use std::collections::BTreeSet;

const SETTLED: &str = include_str!("../../tests/settled-netlists.txt");

/// The bytes that suffice for every netlist.
const ROOM: usize = zaatarloft::NETLIST_BYTES;

/// What a lent buffer holds before.
const OLD: u8 = 0xA5;

struct Bank {
    name: &'static str,
    record: Vec<u8>,
    netlist: Vec<u8>,
}

/// Bytes in hexadecimal, with blanks between some of them.
fn bytes(line: &str) -> Vec<u8> {
    let digits: Vec<u32> = line
        .chars()
        .filter(|c| *c != ' ')
        .map(|c| c.to_digit(16).expect("a hexadecimal digit"))
        .collect();
    digits
        .chunks(2)
        .map(|pair| (16 * pair[0] + pair[1]) as u8)
        .collect()
}

fn banks() -> Vec<Bank> {
    let bank = |block: &'static str| {
        let mut lines = block.lines();
        let name = lines.next()?;
        let record = lines.next()?.strip_prefix("matrix ")?;
        Some(Bank {
            name,
            record: bytes(record),
            netlist: lines.flat_map(bytes).collect(),
        })
    };
    let blocks = SETTLED.split("\n\n").skip(1); // the first one says what the file is
    blocks.map(|block| bank(block).expect("a bank")).collect()
}

/// What the buffer holds after a call that writes these bytes.
fn buffer_with(netlist: &[u8]) -> Vec<u8> {
    let mut buffer = netlist.to_vec();
    buffer.resize(ROOM, OLD);
    buffer
}

#[test]
fn settled_netlists_are_written() {
    for Bank {
        name,
        record,
        netlist,
    } in banks()
    {
        let mut buffer = vec![OLD; ROOM];
        let compiled = zaatarloft::compile(&record, 16, &mut buffer).expect(name);
        assert_eq!(compiled.written, netlist.len(), "{name}");
        assert_eq!(buffer, buffer_with(&netlist), "{name}");
        assert_eq!(zaatarloft::check(&record, &netlist), Ok(()), "{name}");

        let mut buffer = vec![OLD; ROOM];
        reference::compile(&record, 16, &mut buffer).expect(name);
        assert_eq!(buffer, buffer_with(&netlist), "{name}");
    }
}

/// The file was read whole: so many banks, of every number of rows and of columns.
#[test]
fn settled_banks_are_of_all_sizes() {
    let banks = banks();
    assert_eq!(banks.len(), 49);
    for place in [4, 5] {
        let sizes: BTreeSet<u8> = banks.iter().map(|bank| bank.record[place]).collect();
        assert_eq!(sizes, (1..=8).collect());
    }
    assert!(banks.iter().any(|bank| bank.record[4..6] == [8, 8]));
}
