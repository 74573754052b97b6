//! What is measured: nine calls of both sides, on spread random banks; generate on seeds of its own, clock on lists of vectors.

use cases::{bank, plain_market_file, Random};
use reference::literal::Elimination;

/// The bytes that suffice for every netlist.
pub const NETLIST_ROOM: usize = zaatarloft::NETLIST_BYTES;

/// The bits of the samples that all banks are compiled for.
pub const SAMPLE_WIDTH: u8 = 16;

/// The vectors of clock's list in the tables of all calls.
pub const VECTORS: usize = 1_000;

#[derive(Clone, Copy, Debug, PartialEq, Eq)]
pub enum Call {
    Compile,
    Read,
    Check,
    Run,
    Generate,
    ReadMatrixMarket,
    WriteVerilog,
    Registers,
    /// On a list of so many vectors.
    Clock(usize),
}

pub const CALLS: [Call; 9] = [
    Call::Compile,
    Call::Read,
    Call::Check,
    Call::Run,
    Call::Generate,
    Call::ReadMatrixMarket,
    Call::WriteVerilog,
    Call::Registers,
    Call::Clock(VECTORS),
];

impl Call {
    pub fn name(self) -> &'static str {
        match self {
            Call::Compile => "compile",
            Call::Read => "read",
            Call::Check => "check",
            Call::Run => "run",
            Call::Generate => "generate",
            Call::ReadMatrixMarket => "read_matrix_market",
            Call::WriteVerilog => "write_verilog",
            Call::Registers => "registers",
            Call::Clock(_) => "clock",
        }
    }

    /// How many vectors it takes from a list.
    pub fn vectors(self) -> usize {
        match self {
            Call::Clock(vectors) => vectors,
            _ => 0,
        }
    }

    pub fn named(name: &str) -> Option<Self> {
        CALLS.into_iter().find(|call| call.name() == name)
    }
}

/// Which implementation is called.
#[derive(Clone, Copy, Debug, PartialEq, Eq)]
pub enum Side {
    Verified,
    Independent,
}

pub const SIDES: [Side; 2] = [Side::Verified, Side::Independent];

impl Side {
    pub fn name(self) -> &'static str {
        match self {
            Side::Verified => "verified",
            Side::Independent => "independent",
        }
    }

    pub fn named(name: &str) -> Option<Self> {
        SIDES.into_iter().find(|side| side.name() == name)
    }
}

/// One bank with all that the calls are lent. Buffers keep what the call before left in them.
pub struct Input {
    matrix: Vec<u8>,
    buffer: Vec<u8>,
    netlist: Vec<u8>,
    samples: Vec<i32>,
    outputs: Vec<i64>,
    /// Not the bank's matrix: a generated record of its size.
    generated: Vec<u8>,
    seed: u32,
    /// The bank's matrix as a Matrix Market file, and its record, read from there.
    file: Vec<u8>,
    record: Vec<u8>,
    /// Room for the netlist's Verilog text.
    text: Vec<u8>,
    /// Vectors for clock, room for the outputs of all of them, and as many registers as the bank has.
    list: Vec<i32>,
    list_outputs: Vec<i64>,
    store: Vec<i64>,
    pub operations: usize,
}

impl Input {
    /// A random bank of m rows, n columns and coefficients of so many bits, with a list of so many vectors.
    pub fn of_seed(seed: u64, m: usize, n: usize, bits: u32, vectors: usize) -> Self {
        let mut random = Random::new(seed);
        let bank = bank(&mut random, m, n, bits);
        let matrix = bank.record();
        let mut buffer = vec![0; NETLIST_ROOM];
        let compiled = reference::compile(&matrix, SAMPLE_WIDTH, &mut buffer);
        let compiled = compiled.expect("a right record");
        let netlist = buffer[..compiled.written].to_vec();
        let registers = reference::registers(&netlist).expect("a right netlist");
        Input {
            generated: matrix.clone(),
            seed: seed as u32,
            file: plain_market_file(&bank),
            record: matrix.clone(),
            text: vec![0; zaatarloft::VERILOG_BYTES],
            matrix,
            netlist,
            buffer,
            samples: random.samples(SAMPLE_WIDTH, n),
            outputs: vec![0; m],
            list: random.samples(SAMPLE_WIDTH, vectors * n),
            list_outputs: vec![0; vectors * m],
            store: vec![0; registers],
            operations: usize::from(compiled.operations),
        }
    }

    /// How many registers the bank's clocked form has: those of the operations, and the delays.
    pub fn registers(&self) -> usize {
        self.store.len()
    }

    /// How many occurrences elimination touches: those of the matrix's rows, and those that its steps take away or make.
    pub fn touched(&self) -> usize {
        let elimination = Elimination::of_record(&self.matrix);
        elimination.expect("a right record").touched()
    }

    /// Makes one call.
    pub fn call(&mut self, call: Call, side: Side) {
        let accepted = match side {
            Side::Verified => self.verified(call),
            Side::Independent => self.independent(call),
        };
        assert!(accepted);
    }

    /// Whether the library accepts.
    fn verified(&mut self, call: Call) -> bool {
        let (matrix, netlist) = (&self.matrix, &self.netlist);
        let (m, n) = (matrix[4], matrix[5]);
        match call {
            Call::Compile => zaatarloft::compile(matrix, SAMPLE_WIDTH, &mut self.buffer).is_ok(),
            Call::Read => zaatarloft::read(netlist).is_ok(),
            Call::Check => zaatarloft::check(matrix, netlist).is_ok(),
            Call::Run => zaatarloft::run(netlist, &self.samples, &mut self.outputs).is_ok(),
            Call::Generate => zaatarloft::generate(m, n, self.seed, &mut self.generated).is_ok(),
            Call::ReadMatrixMarket => {
                zaatarloft::read_matrix_market(&self.file, &mut self.record).is_ok()
            }
            Call::WriteVerilog => zaatarloft::write_verilog(netlist, &mut self.text).is_ok(),
            Call::Registers => zaatarloft::registers(netlist).is_ok(),
            Call::Clock(vectors) => {
                let samples = &self.list[..vectors * usize::from(n)];
                let outputs = &mut self.list_outputs[..vectors * usize::from(m)];
                zaatarloft::clock(netlist, samples, &mut self.store, outputs).is_ok()
            }
        }
    }

    /// Whether the independent implementation accepts.
    fn independent(&mut self, call: Call) -> bool {
        let (matrix, netlist) = (&self.matrix, &self.netlist);
        let (m, n) = (matrix[4], matrix[5]);
        match call {
            Call::Compile => reference::compile(matrix, SAMPLE_WIDTH, &mut self.buffer).is_ok(),
            Call::Read => reference::read(netlist).is_ok(),
            Call::Check => reference::check(matrix, netlist).is_ok(),
            Call::Run => reference::run(netlist, &self.samples, &mut self.outputs).is_ok(),
            Call::Generate => reference::generate(m, n, self.seed, &mut self.generated).is_ok(),
            Call::ReadMatrixMarket => {
                reference::read_matrix_market(&self.file, &mut self.record).is_ok()
            }
            Call::WriteVerilog => reference::write_verilog(netlist, &mut self.text).is_ok(),
            Call::Registers => reference::registers(netlist).is_ok(),
            Call::Clock(vectors) => {
                let samples = &self.list[..vectors * usize::from(n)];
                let outputs = &mut self.list_outputs[..vectors * usize::from(m)];
                reference::clock(netlist, samples, &mut self.store, outputs).is_ok()
            }
        }
    }
}

/// Seeds far from each other.
pub fn seeds(count: usize) -> impl Iterator<Item = u64> {
    let mut random = Random::new(20_261_115);
    (0..count).map(move |_| random.number())
}
