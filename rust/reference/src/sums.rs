//! Sums of the remaining rows: terms are joined two at a time, each time by one operation.

use std::cmp::Reverse;
use std::collections::BinaryHeap;

use crate::board::{Operand, Operation, Output};
use crate::compile::Rules;

/// In which order the terms of a row are summed.
#[derive(Clone, Copy, Debug, Default)]
pub enum Sums {
    /// The two that come first by depth, then symbol, then exponent are joined, until one term is left.
    #[default]
    Shallowest,
    /// In the order of the row, as before request A4.
    Chain,
}

/// Which of the two terms that are joined is the first operand. The result has its sign.
#[derive(Clone, Copy, Debug, Default)]
pub enum Operands {
    /// Of a positive and a negative term the positive one, else the one that comes first.
    #[default]
    PositiveFirst,
    /// The one that comes first, as before request A5.
    InOrder,
}

/// A term to be joined. The order of the fields is the order of the terms; no two of a row share symbol and exponent, so that signs
/// decide nothing of that order.
#[derive(Clone, Copy, Debug, PartialEq, Eq, PartialOrd, Ord)]
struct Term {
    depth: u16,
    symbol: u16,
    exponent: u8,
    minus: bool,
}

impl Term {
    fn operand(self) -> Operand {
        Operand {
            symbol: self.symbol,
            shift: self.exponent,
        }
    }
}

/// The operations so far.
pub(crate) struct Operations {
    pub operations: Vec<Operation>,
    /// The depth of each symbol, inputs included.
    depths: Vec<u16>,
}

impl Operations {
    pub fn with_inputs(n: usize) -> Self {
        Operations {
            operations: Vec::new(),
            depths: vec![0; n],
        }
    }

    fn depth(&self, symbol: u16) -> u16 {
        self.depths[usize::from(symbol)]
    }

    /// Appends an operation and returns its symbol.
    pub fn append(&mut self, operation: Operation) -> u16 {
        let [a, b] = [operation.a, operation.b].map(|operand| self.depth(operand.symbol));
        let symbol = self.depths.len() as u16;
        self.depths.push(1 + a.max(b));
        self.operations.push(operation);
        symbol
    }

    /// Sums the terms of a row: symbol, exponent, and whether the sign is minus.
    pub fn sum(&mut self, terms: impl Iterator<Item = (u16, u8, bool)>, rules: Rules) -> Output {
        let term = |(symbol, exponent, minus)| Term {
            depth: self.depth(symbol),
            symbol,
            exponent,
            minus,
        };
        let terms: Vec<Term> = terms.map(term).collect();
        let terms = terms.into_iter();
        let operands = rules.operands;
        let sum = match rules.sums {
            Sums::Shallowest => self.join_first(terms.map(Reverse).collect(), operands),
            Sums::Chain => terms.reduce(|sum, term| self.join(sum, term, operands)),
        };
        sum.map_or(Output::Zero, |sum| Output::Entry {
            minus: sum.minus,
            operand: sum.operand(),
        })
    }

    /// Joins the first two terms until one is left, if there is any.
    fn join_first(
        &mut self,
        mut terms: BinaryHeap<Reverse<Term>>,
        operands: Operands,
    ) -> Option<Term> {
        loop {
            let Reverse(first) = terms.pop()?;
            match terms.peek_mut() {
                Some(mut second) => second.0 = self.join(first, second.0, operands),
                None => return Some(first),
            }
        }
    }

    /// Joins two terms, of which `first` comes first, by an operation. The result has the sign of the first operand; the other one is
    /// subtracted where the signs differ.
    fn join(&mut self, first: Term, second: Term, operands: Operands) -> Term {
        let (a, b) = match operands {
            Operands::PositiveFirst if first.minus && !second.minus => (second, first),
            _ => (first, second),
        };
        let symbol = self.append(Operation {
            subtract: a.minus != b.minus,
            a: a.operand(),
            b: b.operand(),
        });
        Term {
            depth: self.depth(symbol),
            symbol,
            exponent: 0,
            minus: a.minus,
        }
    }
}

#[cfg(test)]
mod tests {
    use super::*;
    use cases::Random;

    /// Symbol, exponent, and whether the sign is minus.
    type Terms = Vec<(u16, u8, bool)>;

    fn entry(minus: bool, symbol: u16, shift: u8) -> Output {
        Output::Entry {
            minus,
            operand: Operand { symbol, shift },
        }
    }

    fn operation(a: (u16, u8), subtract: bool, b: (u16, u8)) -> Operation {
        let [a, b] = [a, b].map(|(symbol, shift)| Operand { symbol, shift });
        Operation { subtract, a, b }
    }

    /// The operations and the output of a row over four inputs.
    fn summed(terms: &[(u16, u8, bool)]) -> (Vec<Operation>, Output) {
        let mut operations = Operations::with_inputs(4);
        let output = operations.sum(terms.iter().copied(), Rules::default());
        (operations.operations, output)
    }

    #[test]
    fn no_terms_and_one_term() {
        assert_eq!(summed(&[]), (vec![], Output::Zero));
        assert_eq!(summed(&[(3, 5, false)]), (vec![], entry(false, 3, 5)));
        assert_eq!(summed(&[(3, 5, true)]), (vec![], entry(true, 3, 5)));
    }

    #[test]
    fn terms_of_one_sign_are_added_in_order() {
        for minus in [false, true] {
            let row = [(0, 1, minus), (0, 4, minus), (2, 0, minus)];
            let sums = vec![
                operation((0, 1), false, (0, 4)),
                operation((2, 0), false, (4, 0)),
            ];
            assert_eq!(summed(&row), (sums, entry(minus, 5, 0)));
        }
    }

    #[test]
    fn the_negative_one_is_subtracted() {
        for minus in [false, true] {
            let (a, b) = if minus {
                ((1, 0), (0, 3))
            } else {
                ((0, 3), (1, 0))
            };
            let sums = vec![operation(a, true, b)];
            let row = [(0, 3, minus), (1, 0, !minus)];
            assert_eq!(summed(&row), (sums, entry(false, 4, 0)));
        }
    }

    /// −x0 and −x1 stay negative, x3 − x2 is positive; of these two the second is the first operand.
    #[test]
    fn mixed_signs() {
        let row = [(0, 0, true), (1, 0, true), (2, 0, true), (3, 0, false)];
        let sums = vec![
            operation((0, 0), false, (1, 0)),
            operation((3, 0), true, (2, 0)),
            operation((5, 0), true, (4, 0)),
        ];
        assert_eq!(summed(&row), (sums, entry(false, 6, 0)));
    }

    /// Some operations on eight inputs, of any depths.
    fn any_operations(random: &mut Random) -> Operations {
        let mut operations = Operations::with_inputs(8);
        for last in 7..random.between(7, 20) {
            let mut operand = || (random.between(0, last) as u16, 0);
            let (a, b) = (operand(), operand());
            operations.append(operation(a, random.once_in(2), b));
        }
        operations
    }

    /// A row over these operations, in order; one in three has only minus signs, one in three is mixed.
    fn any_row(random: &mut Random, operations: &Operations) -> Terms {
        let highest = operations.depths.len() - 1;
        let signs = random.choose(&[&[true][..], &[false], &[true, false]]);
        let mut row: Terms = Vec::new();
        for _ in 0..random.between(0, 12) {
            let symbol = random.between(0, highest) as u16;
            row.push((symbol, random.between(0, 15) as u8, false));
        }
        row.sort();
        row.dedup();
        row.iter_mut()
            .for_each(|term| term.2 = random.choose(signs));
        row
    }

    #[test]
    fn an_output_is_minus_exactly_if_the_row_has_terms_and_all_are_negative() {
        let mut random = Random::new(20_261_119);
        let mut met = [0; 3];
        for _ in 0..20_000 {
            let seed = random.number();
            for sums in [Sums::Shallowest, Sums::Chain] {
                let rules = Rules {
                    sums,
                    ..Rules::default()
                };
                let mut random = Random::new(seed);
                let mut operations = any_operations(&mut random);
                let row = any_row(&mut random, &operations);
                let negative = row.iter().filter(|term| term.2).count();
                let kind = match operations.sum(row.iter().copied(), rules) {
                    Output::Zero => 0,
                    Output::Entry { minus: false, .. } => 1,
                    Output::Entry { minus: true, .. } => 2,
                };
                met[kind] += 1;
                assert_eq!(kind == 0, row.is_empty(), "{row:?}");
                let all_negative = !row.is_empty() && negative == row.len();
                assert_eq!(kind == 2, all_negative, "{row:?}");
            }
        }
        println!("zero, plus and minus outputs: {met:?}");
        assert!(met.iter().all(|&count| count >= 1_000));
    }

    /// Operands are chosen and placed by depth, symbol and exponent, in which signs have no part: each operation has the operands that
    /// it had before request A5, perhaps exchanged, and then it subtracts.
    #[test]
    fn operands_of_before_perhaps_exchanged() {
        let mut random = Random::new(20_261_120);
        let mut exchanged = 0;
        for _ in 0..20_000 {
            let seed = random.number();
            let [now, before] = [Operands::PositiveFirst, Operands::InOrder].map(|operands| {
                let mut random = Random::new(seed);
                let mut operations = any_operations(&mut random);
                let row = any_row(&mut random, &operations);
                let rules = Rules {
                    operands,
                    ..Rules::default()
                };
                operations.sum(row.into_iter(), rules);
                operations
            });
            assert_eq!(now.depths, before.depths);
            for (now, before) in now.operations.iter().zip(&before.operations) {
                if (now.a, now.b) != (before.a, before.b) {
                    assert_eq!((now.a, now.b), (before.b, before.a));
                    assert!(now.subtract);
                    exchanged += 1;
                }
            }
        }
        println!("{exchanged} operations have their operands exchanged");
        assert!(exchanged >= 5_000);
    }
}
