//! Operations, depth and negated outputs of random banks: of the verified library's netlists, of those by the rules that requests A4 and
//! A5 have replaced, and the figures that source document 000 has for banks of its own.

use bench::{seeds, NETLIST_ROOM, SAMPLE_WIDTH};
use cases::{bank, filled, Matrix, Random};
use reference::{compile_by, Operands, Rules, Sums};

/// Banks of each row, here and in document 000.
const BANKS: usize = 100;

/// Sizes and coefficient sizes.
const SIZES: [(usize, u32); 5] = [(2, 8), (4, 8), (6, 8), (8, 8), (8, 16)];

/// The methods of document 000's Table 2 by its names, three of them under a limit of the steps.
pub const METHODS: [&str; 7] = [
    "[12]",
    "[5]",
    "H2MC",
    "HCMVM",
    "HCMVM-DC, least + 2",
    "[27], least",
    "HCMVM-DC, least",
];

/// Its means for m by m: `adder` and `step` of each method. [5] has no `step`.
const PUBLISHED: [(usize, [&str; 7]); 4] = [
    (
        2,
        [
            "8.8, 3.5", "9.7", "8.7, 3.6", "8.2, 4.4", "8.2, 3.7", "9.0, 3.1", "8.8, 3.1",
        ],
    ),
    (
        4,
        [
            "32.1, 5.9",
            "31.2",
            "31.7, 5.8",
            "27.6, 7.8",
            "28.1, 5.7",
            "32.8, 4.1",
            "32.1, 4.1",
        ],
    ),
    (
        6,
        [
            "68.0, 7.6",
            "66.1",
            "66.5, 7.7",
            "57.3, 10.0",
            "58.2, 7.0",
            "68.1, 5.0",
            "66.8, 5.0",
        ],
    ),
    (
        8,
        [
            "116.4, 9.2",
            "113.2",
            "114.1, 9.2",
            "96.3, 11.9",
            "99.5, 7.1",
            "119.7, 5.1",
            "117.2, 5.1",
        ],
    ),
];

/// What the netlists of some banks have together.
#[derive(Default)]
pub struct Totals {
    pub operations: u64,
    pub chain_depth: u64,
    pub depth: u64,
    pub outputs: u64,
    /// Negated ones where the term that comes first is the first operand.
    pub negated_in_order: u64,
    pub negated: u64,
}

impl Totals {
    fn of_banks(draw: impl Fn(&mut Random) -> Matrix) -> Self {
        let mut totals = Totals::default();
        for seed in seeds(BANKS) {
            totals.add(&draw(&mut Random::new(seed)));
        }
        totals
    }

    fn add(&mut self, matrix: &Matrix) {
        let chain = Rules {
            sums: Sums::Chain,
            ..Rules::default()
        };
        let in_order = Rules {
            operands: Operands::InOrder,
            ..Rules::default()
        };
        let (record, mut netlist) = (matrix.record(), [0; NETLIST_ROOM]);
        let mut by = |rules| {
            let compiled = compile_by(rules, &record, SAMPLE_WIDTH, &mut netlist);
            compiled.expect("a right record")
        };
        let (chain, in_order) = (by(chain), by(in_order));
        let compiled = zaatarloft::compile(&record, SAMPLE_WIDTH, &mut netlist);
        let compiled = compiled.expect("a right record");
        assert_eq!(compiled.operations, chain.operations);
        assert_eq!(compiled.operations, in_order.operations);
        assert_eq!(compiled.depth, in_order.depth);
        self.operations += u64::from(compiled.operations);
        self.chain_depth += u64::from(chain.depth);
        self.depth += u64::from(compiled.depth);
        self.outputs += matrix.m() as u64;
        self.negated_in_order += u64::from(in_order.negated);
        self.negated += u64::from(compiled.negated);
    }
}

/// The mean over the banks.
pub fn mean(total: u64) -> f64 {
    total as f64 / BANKS as f64
}

/// Banks as the other tables have them: what they are, and their totals.
pub fn drawn() -> Vec<(String, Totals)> {
    let row = |(size, bits)| {
        let label = format!("{size} by {size}, {bits} bits");
        let totals = Totals::of_banks(|random| bank(random, size, size, bits));
        (label, totals)
    };
    SIZES.map(row).into()
}

/// Banks as document 000 draws its own: m, their totals, and its figures.
pub fn published() -> Vec<(usize, Totals, [&'static str; 7])> {
    let row = |(size, figures)| {
        let draw = |random: &mut Random| filled(size, size, || random.between(129, 255) as i16);
        (size, Totals::of_banks(draw), figures)
    };
    PUBLISHED.map(row).into()
}
