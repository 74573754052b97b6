//! Netlist and board machine: operations and outputs as data.

use crate::compile::Rules;
use crate::elimination::{Divisor, Elimination};
use crate::sums::Operations;

/// The most operations of a netlist.
pub(crate) const MOST_OPERATIONS: usize = 504;

/// The highest shift.
pub(crate) const MOST_SHIFT: u8 = 15;

/// An entry of the board machine, shifted to the left.
#[derive(Clone, Copy, Debug, PartialEq, Eq)]
pub(crate) struct Operand {
    pub symbol: u16,
    pub shift: u8,
}

/// A plus or minus B.
#[derive(Clone, Copy, Debug, PartialEq, Eq)]
pub(crate) struct Operation {
    pub subtract: bool,
    pub a: Operand,
    pub b: Operand,
}

impl Operation {
    fn of_divisor(divisor: &Divisor) -> Self {
        Operation {
            subtract: divisor.minus,
            a: Operand {
                symbol: divisor.a,
                shift: divisor.ea,
            },
            b: Operand {
                symbol: divisor.b,
                shift: divisor.eb,
            },
        }
    }
}

#[derive(Clone, Copy, Debug, PartialEq, Eq)]
pub(crate) enum Output {
    Zero,
    Entry { minus: bool, operand: Operand },
}

/// The operations in order, symbols n, n + 1, .., and the outputs row by row.
#[derive(Debug)]
pub(crate) struct Board {
    pub n: usize,
    pub operations: Vec<Operation>,
    pub outputs: Vec<Output>,
}

impl Board {
    /// One operation for each divisor, then the operations that sum each of the m remaining rows.
    pub fn of_elimination(elimination: &Elimination, rules: Rules, m: usize, n: usize) -> Self {
        let mut operations = Operations::with_inputs(n);
        for divisor in &elimination.divisors {
            operations.append(Operation::of_divisor(divisor));
        }
        let sum = |row| operations.sum(elimination.rows.terms(row), rules);
        let outputs = (0..m).map(sum).collect();
        Board {
            n,
            operations: operations.operations,
            outputs,
        }
    }

    /// How many outputs have the sign minus.
    pub fn negated(&self) -> u16 {
        let minus = |output: &&Output| matches!(output, Output::Entry { minus: true, .. });
        self.outputs.iter().filter(minus).count() as u16
    }
}
