//! Run: the board machine on samples.

use crate::board::{Board, Operand, Output};
use crate::read::Contents;
use crate::refusal::{require, Refusal};

/// Runs a netlist on n samples and fills the m outputs.
pub fn run(netlist: &[u8], samples: &[i32], outputs: &mut [i64]) -> Result<(), Refusal> {
    let contents = Contents::of_netlist(netlist)?;
    let board = &contents.board;
    require(samples.len() == board.n, 15, 0)?;
    require(outputs.len() == board.outputs.len(), 16, 0)?;
    contents.samples.require_all(samples)?;

    let values = board.values(samples);
    for (value, output) in outputs.iter_mut().zip(&board.outputs) {
        *value = match *output {
            Output::Zero => 0,
            Output::Entry { minus, operand } => {
                let entry = shifted(&values, operand);
                if minus {
                    -entry
                } else {
                    entry
                }
            }
        };
    }
    Ok(())
}

impl Board {
    /// The whole numbers that the board machine holds at the end.
    fn values(&self, samples: &[i32]) -> Vec<i64> {
        let mut values = Vec::with_capacity(self.n + self.operations.len());
        values.extend(samples.iter().copied().map(i64::from));
        for operation in &self.operations {
            let (a, b) = (shifted(&values, operation.a), shifted(&values, operation.b));
            values.push(if operation.subtract { a - b } else { a + b });
        }
        values
    }
}

/// An entry's value times 2^shift. Widths up to 44 keep it within 64 bits.
fn shifted(values: &[i64], operand: Operand) -> i64 {
    values[usize::from(operand.symbol)] << operand.shift
}
