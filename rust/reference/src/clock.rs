//! Clock: one vector every clock. Every operation ends in a register, and a value that is there before it is wanted waits in delays.

use std::ops::Range;

use crate::board::{Board, Operand, Operation, Output};
use crate::read::Contents;
use crate::refusal::{require, Refusal};

/// Reads a netlist, and returns how many registers its clocked form has: one for each operation, and all delays.
pub fn registers(netlist: &[u8]) -> Result<usize, Refusal> {
    let contents = Contents::of_netlist(netlist)?;
    Ok(Store::of_board(&contents.board).registers)
}

/// Clears the registers of a netlist's clocked form, which are the first of `store`, clocks a whole list of samples through them, n
/// a clock, and fills m outputs a clock. The registers are left as they are after the last clock; the rest of the store stays as it
/// was.
pub fn clock(
    netlist: &[u8],
    samples: &[i32],
    store: &mut [i64],
    outputs: &mut [i64],
) -> Result<(), Refusal> {
    let contents = Contents::of_netlist(netlist)?;
    let clocked = Clocked::of_board(&contents.board);
    require(store.len() >= clocked.registers, 6, 0)?;
    let (m, n) = (contents.board.outputs.len(), contents.board.n);
    let clocks = samples.len().checked_div(n).unwrap_or(0);
    require(samples.len() == n * clocks, 15, 0)?;
    require(outputs.len() == m * clocks, 16, 0)?;
    contents.samples.require_all(samples)?;

    let registers = &mut store[..clocked.registers];
    registers.fill(0);
    let mut results = Vec::with_capacity(clocked.operations.len());
    for clock in 0..clocks {
        let vector = &samples[n * clock..n * (clock + 1)];
        clocked.fill(vector, registers, &mut outputs[m * clock..m * (clock + 1)]);
        clocked.edge(vector, registers, &mut results);
    }
    Ok(())
}

/// Where a value is read in a clock: in the vector, or in the store.
#[derive(Clone, Copy)]
enum Source {
    Sample(usize),
    Register(usize),
}

impl Source {
    fn value(self, vector: &[i32], registers: &[i64]) -> i64 {
        match self {
            Source::Sample(column) => vector[column].into(),
            Source::Register(place) => registers[place],
        }
    }
}

/// A source and the shift to the left of what is read there. Delays hold the value without it.
struct Shifted {
    source: Source,
    shift: u8,
}

impl Shifted {
    fn value(&self, vector: &[i32], registers: &[i64]) -> i64 {
        self.source.value(vector, registers) << self.shift
    }
}

/// An operation: the first plus or minus the second.
struct Sum {
    subtract: bool,
    a: Shifted,
    b: Shifted,
}

impl Sum {
    fn value(&self, vector: &[i32], registers: &[i64]) -> i64 {
        let a = self.a.value(vector, registers);
        let b = self.b.value(vector, registers);
        if self.subtract {
            a - b
        } else {
            a + b
        }
    }
}

/// The delays that all uses of one symbol share, newest first.
struct Delays {
    /// Where the symbol's value is that goes into the newest.
    of: Source,
    places: Range<usize>,
}

/// A board's clocked form: where operands and outputs are read, and what is delayed.
struct Clocked {
    operations: Vec<Sum>,
    /// Minus or plus, and the value; none for a zero output.
    outputs: Vec<Option<(bool, Shifted)>>,
    delays: Vec<Delays>,
    registers: usize,
}

impl Clocked {
    fn of_board(board: &Board) -> Self {
        let store = Store::of_board(board);
        let at = |operand: Operand, wanted: usize| Shifted {
            source: store.source(operand.symbol.into(), wanted),
            shift: operand.shift,
        };
        let sum = |(operation, &depth): (&Operation, &usize)| Sum {
            subtract: operation.subtract,
            a: at(operation.a, depth - 1),
            b: at(operation.b, depth - 1),
        };
        let entry = |output: &Output| match *output {
            Output::Zero => None,
            Output::Entry { minus, operand } => Some((minus, at(operand, store.depth))),
        };
        let delays = (0..store.depths.len()).map(|symbol| Delays {
            of: store.source(symbol, store.depths[symbol]),
            places: store.delays[symbol].clone(),
        });
        let depths = &store.depths[board.n..];
        Clocked {
            operations: board.operations.iter().zip(depths).map(sum).collect(),
            outputs: board.outputs.iter().map(entry).collect(),
            delays: delays.filter(|delays| !delays.places.is_empty()).collect(),
            registers: store.registers,
        }
    }

    /// The outputs of a clock, which are read before its edge.
    fn fill(&self, vector: &[i32], registers: &[i64], outputs: &mut [i64]) {
        for (value, output) in outputs.iter_mut().zip(&self.outputs) {
            *value = match output {
                None => 0,
                Some((false, entry)) => entry.value(vector, registers),
                Some((true, entry)) => -entry.value(vector, registers),
            };
        }
    }

    /// A clock's edge: all registers take what was there before it. `results` is room for the operations' values.
    fn edge(&self, vector: &[i32], registers: &mut [i64], results: &mut Vec<i64>) {
        results.clear();
        let values = self.operations.iter();
        results.extend(values.map(|sum| sum.value(vector, registers)));
        for Delays { of, places } in &self.delays {
            let newest = of.value(vector, registers);
            registers.copy_within(places.start..places.end - 1, places.start + 1);
            registers[places.start] = newest;
        }
        registers[..results.len()].copy_from_slice(results);
    }
}

/// Which registers there are: those of the operations by symbol, then each symbol's delays by symbol.
struct Store {
    n: usize,
    /// The depth of each symbol: so many clocks after its vector's the symbol's value is there.
    depths: Vec<usize>,
    /// The largest depth: so many clocks after its vector's all outputs are wanted.
    depth: usize,
    /// Each symbol's delays, as many as its value has to wait at most.
    delays: Vec<Range<usize>>,
    registers: usize,
}

impl Store {
    fn of_board(board: &Board) -> Self {
        let mut depths = vec![0; board.n];
        for Operation { a, b, .. } in &board.operations {
            let (a, b) = (depths[usize::from(a.symbol)], depths[usize::from(b.symbol)]);
            depths.push(1 + a.max(b));
        }
        let depth = depths.iter().copied().max().unwrap_or(0);

        let mut longest = vec![0; depths.len()];
        let mut wait = |operand: Operand, wanted: usize| {
            let symbol = usize::from(operand.symbol);
            longest[symbol] = longest[symbol].max(wanted - depths[symbol]);
        };
        for (operation, depth) in board.operations.iter().zip(&depths[board.n..]) {
            wait(operation.a, depth - 1);
            wait(operation.b, depth - 1);
        }
        for output in &board.outputs {
            if let Output::Entry { operand, .. } = *output {
                wait(operand, depth);
            }
        }

        let mut registers = board.operations.len();
        let mut delays = Vec::with_capacity(longest.len());
        for count in longest {
            delays.push(registers..registers + count);
            registers += count;
        }
        Store {
            n: board.n,
            depths,
            depth,
            delays,
            registers,
        }
    }

    /// Where a symbol's value is so many clocks after its vector's.
    fn source(&self, symbol: usize, wanted: usize) -> Source {
        match wanted - self.depths[symbol] {
            0 if symbol < self.n => Source::Sample(symbol),
            0 => Source::Register(symbol - self.n),
            delay => Source::Register(self.delays[symbol].start + delay - 1),
        }
    }
}
