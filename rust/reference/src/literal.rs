//! Elimination word for word, to hold faster ones and kept scores against: in every state every pair of every row is looked at, and
//! nothing is kept from the state before.

use std::cmp::Reverse;

use crate::digits::Digits;
use crate::elimination::{Divisor, Order};
use crate::matrix::Matrix;
use crate::refusal::Refusal;

#[derive(Clone, Copy, Debug, PartialEq, Eq, PartialOrd, Ord)]
pub struct Term {
    pub symbol: u16,
    pub exponent: u8,
    pub minus: bool,
}

/// The terms of each row, in ascending order.
pub type Rows = Vec<Vec<Term>>;

/// The rows at one moment of elimination, and what document 01 gives for them.
#[derive(Debug)]
pub struct State {
    pub rows: Rows,
    /// Each divisor that has an occurrence, in ascending order, and its score.
    pub scores: Vec<(Divisor, usize)>,
}

/// What elimination goes through and gives for a matrix.
#[derive(Debug)]
pub struct Elimination {
    /// From the matrix's rows to the remaining rows: one more than the divisors.
    pub states: Vec<State>,
    pub divisors: Vec<Divisor>,
    pub replacements: usize,
}

struct Occurrence {
    row: usize,
    codivisor: u8,
    minus: bool,
    pair: [Term; 2],
}

fn matrix_rows(matrix: &Matrix) -> Rows {
    let row_terms = |row: &[i16; 8]| {
        let mut terms = Vec::new();
        for (symbol, &coefficient) in (0..).zip(row) {
            for (exponent, minus) in Digits::canonic(coefficient).terms() {
                terms.push(Term {
                    symbol,
                    exponent,
                    minus,
                });
            }
        }
        terms
    };
    matrix.rows[..matrix.m].iter().map(row_terms).collect()
}

/// The divisor and the occurrence of two terms of one row.
fn divide(row: usize, first: Term, second: Term) -> (Divisor, Occurrence) {
    let codivisor = first.exponent.min(second.exponent);
    let mut reduced = [first, second];
    for term in &mut reduced {
        term.exponent -= codivisor;
    }
    reduced.sort();
    let minus = reduced[0].minus;
    for term in &mut reduced {
        term.minus ^= minus;
    }
    let [a, b] = reduced;
    let divisor = Divisor {
        a: a.symbol,
        b: b.symbol,
        ea: a.exponent,
        eb: b.exponent,
        minus: b.minus,
    };
    let occurrence = Occurrence {
        row,
        codivisor,
        minus,
        pair: [first, second],
    };
    (divisor, occurrence)
}

fn all_occurrences(rows: &Rows) -> Vec<(Divisor, Occurrence)> {
    let mut found = Vec::new();
    for (row, terms) in rows.iter().enumerate() {
        for (i, &first) in terms.iter().enumerate() {
            for &second in &terms[i + 1..] {
                found.push(divide(row, first, second));
            }
        }
    }
    found.sort_by_key(|(divisor, occurrence)| (*divisor, occurrence.row, occurrence.codivisor));
    found
}

fn overlap(one: &Occurrence, other: &Occurrence) -> bool {
    one.row == other.row && one.pair.iter().any(|term| other.pair.contains(term))
}

/// A divisor and the occurrences taken.
type Taken = (Divisor, Vec<Occurrence>);

fn all_taken(rows: &Rows) -> Vec<Taken> {
    let mut all: Vec<Taken> = Vec::new();
    for (divisor, occurrence) in all_occurrences(rows) {
        match all.last_mut() {
            Some((last, taken)) if *last == divisor => {
                if !taken.iter().any(|earlier| overlap(earlier, &occurrence)) {
                    taken.push(occurrence);
                }
            }
            _ => all.push((divisor, vec![occurrence])),
        }
    }
    all
}

/// The depth of the operation that a divisor would become, from those of the symbols.
fn depth(divisor: &Divisor, depths: &[u16]) -> u16 {
    let [a, b] = [divisor.a, divisor.b].map(|symbol| depths[usize::from(symbol)]);
    1 + a.max(b)
}

/// Of the divisors with the highest score the first in the order, and the occurrences taken, if there are at least 2.
fn pick(all: Vec<Taken>, depths: &[u16], order: Order) -> Option<Taken> {
    let rank = |(divisor, taken): &Taken| {
        let counted = match order {
            Order::DepthThenDivisor => depth(divisor, depths),
            Order::DivisorAlone => 0,
        };
        (taken.len(), Reverse(counted), Reverse(*divisor))
    };
    let first = all.into_iter().max_by_key(rank);
    first.filter(|(_, taken)| taken.len() >= 2)
}

fn replace(rows: &mut Rows, symbol: u16, taken: &[Occurrence]) {
    for occurrence in taken {
        let terms = &mut rows[occurrence.row];
        terms.retain(|term| !occurrence.pair.contains(term));
        terms.push(Term {
            symbol,
            exponent: occurrence.codivisor,
            minus: occurrence.minus,
        });
    }
    rows.iter_mut().for_each(|terms| terms.sort());
}

impl Elimination {
    /// Of a matrix record. Refusals 1 to 5.
    pub fn of_record(record: &[u8]) -> Result<Self, Refusal> {
        let matrix = Matrix::of_record(record)?;
        Ok(Elimination::of_matrix(&matrix, Order::DepthThenDivisor))
    }

    fn of_matrix(matrix: &Matrix, order: Order) -> Self {
        let (mut rows, mut depths) = (matrix_rows(matrix), vec![0; matrix.n]);
        let mut elimination = Elimination {
            states: Vec::new(),
            divisors: Vec::new(),
            replacements: 0,
        };
        loop {
            let all = all_taken(&rows);
            let score = |(divisor, taken): &Taken| (*divisor, taken.len());
            elimination.states.push(State {
                rows: rows.clone(),
                scores: all.iter().map(score).collect(),
            });
            let (divisor, taken) = match pick(all, &depths, order) {
                Some(picked) => picked,
                None => return elimination,
            };
            replace(&mut rows, depths.len() as u16, &taken);
            depths.push(depth(&divisor, &depths));
            elimination.divisors.push(divisor);
            elimination.replacements += taken.len();
        }
    }

    /// How many occurrences a count that is kept from step to step has to look at: those in the matrix's rows, and of each step those
    /// that it takes away and those that it makes.
    pub fn touched(&self) -> usize {
        let start = self.states[0].rows.iter().map(|row| pairs(row.len()));
        let steps = self.states.windows(2).map(|two| {
            let rows = two[0].rows.iter().zip(&two[1].rows);
            rows.map(|(before, after)| changed(before, after)).sum()
        });
        start.chain(steps).sum()
    }
}

/// The pairs of so many terms.
fn pairs(terms: usize) -> usize {
    terms * terms.saturating_sub(1) / 2
}

/// The pairs of terms that a row has either before a step or after it, but not both.
fn changed(before: &[Term], after: &[Term]) -> usize {
    let kept = before.iter().filter(|term| after.contains(term)).count();
    pairs(before.len()) + pairs(after.len()) - 2 * pairs(kept)
}

#[cfg(test)]
mod tests {
    use super::*;
    use crate::elimination::Elimination as Fast;

    fn matrix(m: usize, n: usize, mut coefficient: impl FnMut() -> i16) -> Matrix {
        let mut rows = [[0; 8]; 8];
        for row in &mut rows[..m] {
            row[..n].fill_with(&mut coefficient);
        }
        Matrix { m, n, rows }
    }

    fn assert_same(matrix: &Matrix, order: Order) {
        let fast = Fast::of_matrix(matrix, order);
        let literal = Elimination::of_matrix(matrix, order);
        assert_eq!(fast.divisors, literal.divisors, "{:?}", matrix.rows);
        assert_eq!(usize::from(fast.replacements), literal.replacements);
        assert_eq!(literal.states.len(), literal.divisors.len() + 1);
        let remaining = &literal.states[literal.divisors.len()].rows;
        for (row, terms) in remaining.iter().enumerate() {
            let term = |(symbol, exponent, minus)| Term {
                symbol,
                exponent,
                minus,
            };
            let fast_terms: Vec<Term> = fast.rows.terms(row).map(term).collect();
            assert_eq!(&fast_terms, terms, "row {row} of {:?}", matrix.rows);
        }
    }

    #[test]
    fn fast_and_literal_elimination_agree_on_every_coefficient() {
        for coefficient in i16::MIN..=i16::MAX {
            assert_same(&matrix(1, 1, || coefficient), Order::DepthThenDivisor);
        }
    }

    #[test]
    fn fast_and_literal_elimination_agree_on_spread_matrices() {
        let mut random = cases::Random::new(1);
        for _ in 0..400 {
            let (m, n) = (random.between(1, 8), random.between(1, 8));
            let bits = random.between(1, 16) as u32;
            let matrix = matrix(m, n, || random.coefficient(bits));
            assert_same(&matrix, Order::DepthThenDivisor);
            assert_same(&matrix, Order::DivisorAlone);
        }
    }

    /// The one state is that of no rows: no divisor has an occurrence.
    #[test]
    fn no_rows_have_one_state() {
        let no_rows = matrix(0, 0, || 0);
        assert_same(&no_rows, Order::DepthThenDivisor);
        let literal = Elimination::of_matrix(&no_rows, Order::DepthThenDivisor);
        assert_eq!(scores(&literal), [[0; 0]]);
    }

    fn of_one(coefficient: i16) -> Elimination {
        Elimination::of_matrix(&matrix(1, 1, || coefficient), Order::DepthThenDivisor)
    }

    /// The scores in each state.
    fn scores(elimination: &Elimination) -> Vec<Vec<usize>> {
        let scores = |state: &State| state.scores.iter().map(|one| one.1).collect();
        elimination.states.iter().map(scores).collect()
    }

    #[test]
    fn twenty_one_has_score_one() {
        let twenty_one = of_one(21);
        assert_eq!(scores(&twenty_one), [[1, 1]]);
        assert!(twenty_one.divisors.is_empty());
        assert_eq!(twenty_one.touched(), 3);
    }

    /// Digits at 0, 2, 4 and 6: of the distance 2 three pairs, two of them taken, of 4 two, and of 6 one. The step takes all six away
    /// and makes the one of the new symbol's terms at 0 and 4.
    #[test]
    fn eighty_five_has_scores_two_two_one() {
        let eighty_five = of_one(85);
        assert_eq!(scores(&eighty_five), [vec![2, 2, 1], vec![1]]);
        assert_eq!(eighty_five.touched(), 6 + 6 + 1);
    }

    /// Row 3, −3: digits −1 at 0 and 1 at 2, then the reverse. The step replaces all four terms.
    #[test]
    fn occurrences_that_steps_touch() {
        let mut coefficients = [3, -3].into_iter();
        let three_minus_three = matrix(1, 2, || coefficients.next().unwrap());
        let literal = Elimination::of_matrix(&three_minus_three, Order::DepthThenDivisor);
        assert_eq!(literal.touched(), 6 + 6 + 1);

        // A third column that stays has lost its pairs with the first four terms, and gained those with the two new ones.
        let mut coefficients = [3, -3, 1].into_iter();
        let with_one = matrix(1, 3, || coefficients.next().unwrap());
        let literal = Elimination::of_matrix(&with_one, Order::DepthThenDivisor);
        assert_eq!(literal.touched(), 10 + 10 + 3);
    }
}
