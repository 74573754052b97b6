//! Elimination: divisors, occurrences, scores, and the step that replaces them.
//!
//! A divisor's score can only fall while elimination goes on: a step takes terms of old symbols away and adds terms of its
//! new symbol alone. The depth of its operation never changes. So a divisor is scored when its later symbol comes into being,
//! and again only when it is at the top of the heap; if its score has not changed then, no other divisor comes before it.

use std::cmp::Reverse;
use std::collections::binary_heap::{BinaryHeap, PeekMut};

use crate::digits::Digits;
use crate::matrix::{Matrix, MOST};

/// (a shifted by ea) plus or minus (b shifted by eb). The order of the fields is the order among equal scores and depths.
#[derive(Clone, Copy, Debug, PartialEq, Eq, PartialOrd, Ord)]
pub struct Divisor {
    pub a: u16,
    pub b: u16,
    pub ea: u8,
    pub eb: u8,
    pub minus: bool,
}

impl Divisor {
    /// The occurrences taken in one row, from the digits of a and of b there: bit c stands for co-divisor c.
    fn taken(self, a: Digits, b: Digits) -> u16 {
        let (a, b) = (a.down(self.ea), b.down(self.eb));
        let occurrences = if self.minus {
            (a.plus & b.minus) | (a.minus & b.plus)
        } else {
            (a.plus & b.plus) | (a.minus & b.minus)
        };
        if self.a == self.b {
            without_overlap(occurrences, self.eb)
        } else {
            occurrences
        }
    }
}

/// Takes occurrences by ascending co-divisor where two overlap if their co-divisors differ by `distance`.
fn without_overlap(occurrences: u16, distance: u8) -> u16 {
    let (mut taken, mut left) = (0, occurrences);
    while left != 0 {
        let lowest = left & left.wrapping_neg();
        taken |= lowest;
        left &= !(lowest | lowest << distance);
    }
    taken
}

/// The rows: the digits of each symbol in each row.
#[derive(Clone, Debug)]
pub(crate) struct Rows {
    symbols: Vec<[Digits; MOST]>,
}

impl Rows {
    /// The matrix's rows.
    pub fn of_matrix(matrix: &Matrix) -> Self {
        let column = |j: usize| matrix.rows.map(|row| Digits::canonic(row[j]));
        Rows {
            symbols: (0..matrix.n).map(column).collect(),
        }
    }

    /// The terms of one row in order: symbol, exponent, and whether the sign is minus.
    pub fn terms(&self, row: usize) -> impl Iterator<Item = (u16, u8, bool)> + '_ {
        (0..).zip(&self.symbols).flat_map(move |(symbol, digits)| {
            digits[row]
                .terms()
                .map(move |(exponent, minus)| (symbol, exponent, minus))
        })
    }

    fn score(&self, divisor: Divisor) -> u16 {
        let a = &self.symbols[usize::from(divisor.a)];
        let b = &self.symbols[usize::from(divisor.b)];
        let taken = |(&a, &b)| divisor.taken(a, b).count_ones() as u16;
        a.iter().zip(b).map(taken).sum()
    }

    /// Replaces each taken pair by one term of the next symbol.
    fn replace(&mut self, divisor: Divisor) {
        let (a, b) = (usize::from(divisor.a), usize::from(divisor.b));
        let mut terms = [Digits::default(); MOST];
        for (row, term) in terms.iter_mut().enumerate() {
            let (in_a, in_b) = (self.symbols[a][row], self.symbols[b][row]);
            let taken = divisor.taken(in_a, in_b);
            *term = in_a.down(divisor.ea).at(taken);
            self.symbols[a][row] = self.symbols[a][row].at(!(taken << divisor.ea));
            self.symbols[b][row] = self.symbols[b][row].at(!(taken << divisor.eb));
        }
        self.symbols.push(terms);
    }

    /// Whether some row has terms of both symbols.
    fn meet(&self, a: usize, b: usize) -> bool {
        let mut rows = self.symbols[a].iter().zip(&self.symbols[b]);
        rows.any(|(in_a, in_b)| in_a.nonzero() != 0 && in_b.nonzero() != 0)
    }

    /// How many occurrences each divisor of the symbols a and b has: by eb − ea + 15, then by sign.
    fn occurrences(&self, a: usize, b: usize) -> [[u16; 2]; 31] {
        let mut counts = [[0; 2]; 31];
        for (in_a, in_b) in self.symbols[a].iter().zip(&self.symbols[b]) {
            for (ea, minus_a) in in_a.terms() {
                for (eb, minus_b) in in_b.terms() {
                    let signs = &mut counts[usize::from(15 + eb - ea)];
                    signs[usize::from(minus_a != minus_b)] += 1;
                }
            }
        }
        counts
    }
}

/// What decides among divisors of equal score.
#[derive(Clone, Copy, Debug, Default)]
pub enum Order {
    /// The smallest depth of the operation that a divisor would become, then the smallest divisor.
    #[default]
    DepthThenDivisor,
    /// The smallest divisor alone, as before request A2.
    DivisorAlone,
}

/// A divisor, the depth of its operation and a score that it had: highest score first, then smallest depth, then smallest
/// divisor. Small numbers keep a candidate small, since the heap moves many.
#[derive(Clone, Copy, Debug, PartialEq, Eq, PartialOrd, Ord)]
struct Candidate {
    score: u16,
    depth: Reverse<u16>,
    divisor: Reverse<Divisor>,
}

/// What elimination gives for a matrix.
#[derive(Debug)]
pub(crate) struct Elimination {
    pub divisors: Vec<Divisor>,
    pub replacements: u16,
    /// At the end, the remaining rows.
    pub rows: Rows,
    order: Order,
    /// The depth of each symbol, or 0 where it does not count.
    depths: Vec<u16>,
    candidates: BinaryHeap<Candidate>,
}

impl Elimination {
    pub fn of_matrix(matrix: &Matrix, order: Order) -> Self {
        let mut elimination = Elimination {
            divisors: Vec::new(),
            replacements: 0,
            rows: Rows::of_matrix(matrix),
            order,
            depths: vec![0; matrix.n],
            candidates: BinaryHeap::new(),
        };
        for symbol in 0..matrix.n {
            elimination.add_candidates(symbol);
        }
        while let Some(picked) = elimination.pick() {
            elimination.rows.replace(picked.divisor.0);
            elimination.divisors.push(picked.divisor.0);
            elimination.depths.push(picked.depth.0);
            elimination.replacements += picked.score;
            elimination.add_candidates(elimination.rows.symbols.len() - 1);
        }
        elimination
    }

    /// The depth of the operation that a divisor of these symbols would become, or 0 where it does not count.
    fn depth(&self, a: usize, b: usize) -> u16 {
        match self.order {
            Order::DepthThenDivisor => 1 + self.depths[a].max(self.depths[b]),
            Order::DivisorAlone => 0,
        }
    }

    /// Adds the divisors of symbol b and each symbol up to it.
    fn add_candidates(&mut self, b: usize) {
        for a in 0..=b {
            if self.rows.meet(a, b) {
                self.add_divisors(a, b);
            }
        }
    }

    /// Adds the divisors of two symbols whose score is at least 2.
    fn add_divisors(&mut self, a: usize, b: usize) {
        let counts = self.rows.occurrences(a, b);
        let depth = self.depth(a, b);
        let least = if a == b { 16 } else { 0 };
        for (distance, signs) in counts.iter().enumerate().skip(least) {
            for (minus, &count) in [false, true].into_iter().zip(signs) {
                let divisor = Divisor {
                    a: a as u16,
                    b: b as u16,
                    ea: 15u8.saturating_sub(distance as u8),
                    eb: (distance as u8).saturating_sub(15),
                    minus,
                };
                // Only occurrences of a symbol with itself can overlap.
                let score = if a == b && count >= 2 {
                    self.rows.score(divisor)
                } else {
                    count
                };
                if score >= 2 {
                    self.candidates.push(Candidate {
                        score,
                        depth: Reverse(depth),
                        divisor: Reverse(divisor),
                    });
                }
            }
        }
    }

    /// The first of the divisors with the highest score, if that is at least 2.
    fn pick(&mut self) -> Option<Candidate> {
        while let Some(mut top) = self.candidates.peek_mut() {
            let score = self.rows.score(top.divisor.0);
            if score == top.score {
                return Some(PeekMut::pop(top));
            }
            if score < 2 {
                PeekMut::pop(top);
            } else {
                top.score = score;
            }
        }
        None
    }
}
