//! The stored matrices tell how compile decides ties in depth where it sums a row. Rows are joined here once more, word for word, from
//! what the literal elimination leaves; then again with the ties of one kind decided the other way round.

use std::mem;

use reference::literal::{Elimination, Term};

use crate::compile::compiled_records;
use crate::matrices::netlist;

/// Two terms of one depth in a row.
#[derive(Clone, Copy, Debug, PartialEq, Eq)]
enum Tie {
    /// Different symbols, of inputs or divisors.
    Symbols,
    /// One symbol: exponents decide.
    Exponents,
    /// A joined term and a divisor's.
    JoinedAndDivisor,
    /// Two joined terms.
    TwoJoined,
}

/// Which ties are decided the other way round: those of a kind, in the first join of a row or in its later ones.
#[derive(Clone, Copy, Debug)]
struct Turned {
    tie: Tie,
    first_join: bool,
}

const TURNED: [Turned; 6] = {
    const fn turned(tie: Tie, first_join: bool) -> Turned {
        Turned { tie, first_join }
    }
    [
        turned(Tie::Symbols, true),
        turned(Tie::Symbols, false),
        turned(Tie::Exponents, true),
        turned(Tie::Exponents, false),
        turned(Tie::JoinedAndDivisor, false),
        turned(Tie::TwoJoined, false),
    ]
};

/// A term of a row that is being summed.
#[derive(Clone, Copy)]
struct Summand {
    term: Term,
    depth: u16,
    joined: bool,
}

impl Summand {
    /// What the order of summands goes by. Symbols are below 512, and a joined one is above all others of its row.
    fn place(&self, turned: Option<Tie>) -> [i32; 4] {
        let numbers = [self.depth, 0, self.term.symbol, self.term.exponent.into()];
        let mut place = numbers.map(i32::from);
        match turned {
            Some(Tie::Symbols) if !self.joined => place[2] *= -1,
            Some(Tie::Exponents) => place[3] *= -1,
            Some(Tie::JoinedAndDivisor) if self.joined => place[1] = -1,
            Some(Tie::TwoJoined) if self.joined => place[2] = 1024 - place[2],
            _ => {}
        }
        place
    }
}

/// Sign, operands and shifts of an operation, as a netlist has them before the width.
type Operation = [u8; 7];

fn operation(minus: bool, a: (u16, u8), b: (u16, u8)) -> Operation {
    let ([low_a, high_a], [low_b, high_b]) = (a.0.to_le_bytes(), b.0.to_le_bytes());
    [minus.into(), low_a, high_a, a.1, low_b, high_b, b.1]
}

/// The operations so far, and the depth of each symbol.
struct Board {
    operations: Vec<Operation>,
    depths: Vec<u16>,
}

impl Board {
    fn append(&mut self, minus: bool, a: (u16, u8), b: (u16, u8)) {
        let [deep_a, deep_b] = [a, b].map(|(symbol, _)| self.depths[usize::from(symbol)]);
        self.depths.push(1 + deep_a.max(deep_b));
        self.operations.push(operation(minus, a, b));
    }

    /// Joins the first two summands, and leaves their sum in place of them. A positive one stands before a negative one.
    fn join(&mut self, summands: &mut Vec<Summand>) {
        let [mut a, mut b] = [0, 1].map(|index| summands[index].term);
        let subtracted = a.minus != b.minus;
        if subtracted && a.minus {
            mem::swap(&mut a, &mut b);
        }
        self.append(subtracted, (a.symbol, a.exponent), (b.symbol, b.exponent));
        let sum = Summand {
            term: Term {
                symbol: self.depths.len() as u16 - 1,
                exponent: 0,
                minus: a.minus,
            },
            depth: self.depths[self.depths.len() - 1],
            joined: true,
        };
        summands.splice(..2, [sum]);
    }

    fn sum(&mut self, row: &[Term], turned: Option<Turned>) {
        let summand = |&term: &Term| Summand {
            term,
            depth: self.depths[usize::from(term.symbol)],
            joined: false,
        };
        let mut summands: Vec<Summand> = row.iter().map(summand).collect();
        while summands.len() > 1 {
            let first_join = summands.len() == row.len();
            let turned = turned.filter(|turned| turned.first_join == first_join);
            summands.sort_by_key(|summand| summand.place(turned.map(|turned| turned.tie)));
            self.join(&mut summands);
        }
    }
}

/// The operations of a matrix of n columns: divisors, then row after row.
fn operations(elimination: &Elimination, n: usize, turned: Option<Turned>) -> Vec<Operation> {
    let mut board = Board {
        operations: Vec::new(),
        depths: vec![0; n],
    };
    for divisor in &elimination.divisors {
        let (a, b) = ((divisor.a, divisor.ea), (divisor.b, divisor.eb));
        board.append(divisor.minus, a, b);
    }
    let remaining = elimination.states.last().expect("the remaining rows");
    for row in &remaining.rows {
        board.sum(row, turned);
    }
    board.operations
}

/// The operations that compile writes.
fn compiled(record: &[u8]) -> Vec<Operation> {
    let netlist = netlist(record);
    let (mut operations, mut place) = (Vec::new(), 0);
    while let Ok(record) = reference::step(&netlist, place) {
        if record.kind == 3 {
            operations.push(record.payload[..7].try_into().expect("an operation"));
        }
        place = record.next;
    }
    operations
}

#[test]
fn stored_matrices_tell_how_each_tie_is_decided() {
    let mut counts = TURNED.map(|turned| (turned, 0));
    for record in compiled_records() {
        let elimination = Elimination::of_record(&record).expect("a right record");
        let n = netlist(&record)[5].into(); // the head's, since a record may have no bytes
        let operations = |turned| operations(&elimination, n, turned);
        let right = compiled(&record);
        assert_eq!(operations(None), right, "{record:?}");
        for (turned, count) in &mut counts {
            let others = operations(Some(*turned));
            assert_eq!(others.len(), right.len());
            *count += usize::from(others != right);
        }
    }
    for (turned, count) in counts {
        println!("{turned:?}: {count} stored matrices have other bytes");
        assert!(count >= 50, "{turned:?}: only {count} have other bytes");
    }
}
