//! Compile: the netlist of a matrix, written into the lent buffer.

use crate::board::{Board, Operand, Operation, Output};
use crate::elimination::{Elimination, Order, Rows};
use crate::matrix::Matrix;
use crate::refusal::{require, Refusal};
use crate::samples::Samples;
use crate::sums::{Operands, Sums};
use crate::width::Entries;

/// What an accepted compile returns.
#[derive(Clone, Copy, Debug, Default, PartialEq, Eq)]
pub struct Compiled {
    /// Bytes written.
    pub written: usize,
    pub operations: u16,
    /// The plain count.
    pub plain: u16,
    pub divisors: u16,
    pub replacements: u16,
    pub depth: u16,
    /// Outputs with the sign minus.
    pub negated: u16,
}

/// Rules that a later request has changed. The default ones are in force.
#[derive(Clone, Copy, Debug, Default)]
pub struct Rules {
    pub order: Order,
    pub sums: Sums,
    pub operands: Operands,
}

/// Writes the netlist of a matrix record, for samples of `sample_width` bits, into the first bytes of `buffer`.
pub fn compile(matrix: &[u8], sample_width: u8, buffer: &mut [u8]) -> Result<Compiled, Refusal> {
    compile_by(Rules::default(), matrix, sample_width, buffer)
}

/// Compile by rules of which some were in force before. For tests and the benchmark alone.
pub fn compile_by(
    rules: Rules,
    matrix: &[u8],
    sample_width: u8,
    buffer: &mut [u8],
) -> Result<Compiled, Refusal> {
    let samples = Samples::of_width(sample_width).ok_or(Refusal {
        number: 20,
        place: 0,
    })?;
    let matrix = Matrix::of_record(matrix)?;
    let plain = plain_count(&Rows::of_matrix(&matrix), matrix.m);
    let elimination = Elimination::of_matrix(&matrix, rules.order);
    let board = Board::of_elimination(&elimination, rules, matrix.m, matrix.n);
    require(buffer.len() >= size(&board, samples), 6, 0)?;

    let mut writer = Writer { buffer, place: 0 };
    let depth = writer.netlist(&board, samples);
    Ok(Compiled {
        written: writer.place,
        operations: board.operations.len() as u16,
        plain,
        divisors: elimination.divisors.len() as u16,
        replacements: elimination.replacements,
        depth,
        negated: board.negated(),
    })
}

/// The sum over the rows of (terms − 1), a row without terms giving 0.
fn plain_count(rows: &Rows, m: usize) -> u16 {
    let additions = |row| rows.terms(row).count().saturating_sub(1) as u16;
    (0..m).map(additions).sum()
}

/// The bytes of a netlist: head, operations, outputs, totals.
fn size(board: &Board, samples: Samples) -> usize {
    let head = if samples.stated().is_none() { 8 } else { 9 };
    head + 12 * board.operations.len() + 9 * board.outputs.len() + 8
}

/// Writes record by record.
struct Writer<'a> {
    buffer: &'a mut [u8],
    place: usize,
}

impl Writer<'_> {
    fn bytes(&mut self, bytes: &[u8]) {
        let end = self.place + bytes.len();
        self.buffer[self.place..end].copy_from_slice(bytes);
        self.place = end;
    }

    fn number(&mut self, number: u16) {
        self.bytes(&number.to_le_bytes());
    }

    fn operand(&mut self, operand: Operand) {
        self.number(operand.symbol);
        self.bytes(&[operand.shift]);
    }

    /// Writes the whole netlist and returns its depth.
    fn netlist(&mut self, board: &Board, samples: Samples) -> u16 {
        let operations = board.operations.len();
        let mut entries = Entries::inputs(board.n, operations, samples);

        self.head(board, samples);
        for operation in &board.operations {
            let width = entries.append(operation);
            self.operation(operation, width as u8);
        }
        for output in &board.outputs {
            let (_, width) = entries.output(output);
            self.output(output, width as u8);
        }

        self.number(8);
        self.number(5);
        self.number(operations as u16);
        self.number(entries.depth);
        entries.depth
    }

    /// Kind 2, or kind 6, which has the samples' width behind the rest.
    fn head(&mut self, board: &Board, samples: Samples) {
        let stated = samples.stated();
        let (length, kind) = if stated.is_none() { (8, 2) } else { (9, 6) };
        self.number(length);
        self.number(kind);
        self.bytes(&[board.outputs.len() as u8, board.n as u8]);
        self.number(board.operations.len() as u16);
        if let Some(width) = stated {
            self.bytes(&[width]);
        }
    }

    fn operation(&mut self, operation: &Operation, width: u8) {
        self.number(12);
        self.number(3);
        self.bytes(&[u8::from(operation.subtract)]);
        self.operand(operation.a);
        self.operand(operation.b);
        self.bytes(&[width]);
    }

    fn output(&mut self, output: &Output, width: u8) {
        let zero = Operand {
            symbol: 0,
            shift: 0,
        };
        let (sign, operand) = match *output {
            Output::Zero => (2, zero),
            Output::Entry { minus, operand } => (u8::from(minus), operand),
        };
        self.number(9);
        self.number(4);
        self.bytes(&[sign]);
        self.operand(operand);
        self.bytes(&[width]);
    }
}
