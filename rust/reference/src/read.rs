//! Read: takes exactly the bytes that are a netlist.

use crate::board::{Board, Operand, Operation, Output, MOST_OPERATIONS, MOST_SHIFT};
use crate::matrix::is_size;
use crate::record::{step, two_bytes, PREFIX};
use crate::refusal::{require, Refusal};
use crate::samples::Samples;
use crate::width::{Entries, Form, MOST_WIDTH};

/// What an accepted read returns.
#[derive(Clone, Copy, Debug, Default, PartialEq, Eq)]
pub struct Netlist {
    pub m: u8,
    pub n: u8,
    pub operations: u16,
    pub depth: u16,
}

/// Reads a netlist.
pub fn read(netlist: &[u8]) -> Result<Netlist, Refusal> {
    Contents::of_netlist(netlist).map(|contents| contents.netlist)
}

/// Reads a netlist, and returns the width of the samples that it takes.
pub fn sample_width(netlist: &[u8]) -> Result<u8, Refusal> {
    Contents::of_netlist(netlist).map(|contents| contents.samples.width())
}

/// All that a netlist's bytes hold.
pub(crate) struct Contents {
    pub netlist: Netlist,
    pub samples: Samples,
    pub board: Board,
    /// The coefficients of each output.
    pub forms: Vec<Form>,
}

impl Contents {
    /// Reads record by record. Refusals 7 to 12.
    pub fn of_netlist(bytes: &[u8]) -> Result<Self, Refusal> {
        let mut reader = Reader { bytes, place: 0 };
        let Head {
            m,
            n,
            count,
            samples,
        } = reader.head()?;
        let mut entries = Entries::inputs(n, count, samples);
        let mut board = Board {
            n,
            operations: Vec::with_capacity(count),
            outputs: Vec::with_capacity(m),
        };
        let mut forms = Vec::with_capacity(m);
        for _ in 0..count {
            board.operations.push(reader.operation(&mut entries)?);
        }
        for _ in 0..m {
            let (output, form) = reader.output(&entries)?;
            board.outputs.push(output);
            forms.push(form);
        }
        reader.totals(count, entries.depth)?;
        Ok(Contents {
            netlist: Netlist {
                m: m as u8,
                n: n as u8,
                operations: count as u16,
                depth: entries.depth,
            },
            samples,
            board,
            forms,
        })
    }
}

/// What a head says.
struct Head {
    m: usize,
    n: usize,
    /// The number of operations.
    count: usize,
    samples: Samples,
}

struct Reader<'a> {
    bytes: &'a [u8],
    place: usize,
}

impl<'a> Reader<'a> {
    /// The next record's start and payload, which is to have one of these kinds, each with its length. Refusals 7 and 8.
    fn record(&mut self, expected: &[(u16, usize)]) -> Result<(usize, &'a [u8]), Refusal> {
        let place = self.place;
        let record = step(self.bytes, place)?;
        let found = (record.kind, PREFIX + record.payload.len());
        require(expected.contains(&found), 8, place)?;
        self.place = record.next;
        Ok((place, record.payload))
    }

    /// m and n are 0 only together, and only with no operations. Of the two kinds the longer one says a width.
    fn head(&mut self) -> Result<Head, Refusal> {
        let (place, payload) = self.record(&[(2, 8), (6, 9)])?;
        let (m, n) = (usize::from(payload[0]), usize::from(payload[1]));
        let count = usize::from(two_bytes(payload, 2));
        let some_rows = is_size(m) && is_size(n) && count <= MOST_OPERATIONS;
        let no_rows = (m, n, count) == (0, 0, 0);
        require(some_rows || no_rows, 9, place)?;
        match Samples::of_head(payload.get(4).copied()) {
            None => Err(Refusal { number: 9, place }),
            Some(samples) => Ok(Head {
                m,
                n,
                count,
                samples,
            }),
        }
    }

    fn operation(&mut self, entries: &mut Entries) -> Result<Operation, Refusal> {
        let (place, payload) = self.record(&[(3, 12)])?;
        let operation = Operation {
            subtract: payload[0] == 1,
            a: operand(payload, 1),
            b: operand(payload, 4),
        };
        let in_range =
            payload[0] <= 1 && is_operand(operation.a, entries) && is_operand(operation.b, entries);
        require(in_range, 9, place)?;
        require_width(entries.append(&operation), payload[7], place)?;
        Ok(operation)
    }

    fn output(&mut self, entries: &Entries) -> Result<(Output, Form), Refusal> {
        let (place, payload) = self.record(&[(4, 9)])?;
        let operand = operand(payload, 1);
        let output = match payload[0] {
            2 => Output::Zero,
            sign => Output::Entry {
                minus: sign == 1,
                operand,
            },
        };
        let in_range = match output {
            Output::Zero => payload[1..] == [0, 0, 0, 1],
            Output::Entry { .. } => payload[0] <= 1 && is_operand(operand, entries),
        };
        require(in_range, 9, place)?;
        let (form, width) = entries.output(&output);
        require_width(width, payload[4], place)?;
        Ok((output, form))
    }

    fn totals(&mut self, operations: usize, depth: u16) -> Result<(), Refusal> {
        let (place, payload) = self.record(&[(5, 8)])?;
        let same =
            usize::from(two_bytes(payload, 0)) == operations && two_bytes(payload, 2) == depth;
        require(same, 11, place)?;
        require(self.place == self.bytes.len(), 12, self.place)
    }
}

fn operand(payload: &[u8], at: usize) -> Operand {
    Operand {
        symbol: two_bytes(payload, at),
        shift: payload[at + 2],
    }
}

/// Whether an operand is one of the entries so far, and its shift in range.
fn is_operand(operand: Operand, entries: &Entries) -> bool {
    usize::from(operand.symbol) < entries.count() && operand.shift <= MOST_SHIFT
}

fn require_width(width: u32, recorded: u8, place: usize) -> Result<(), Refusal> {
    require(
        width == u32::from(recorded) && width <= MOST_WIDTH,
        10,
        place,
    )
}
