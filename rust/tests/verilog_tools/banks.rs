//! The banks whose modules are tried: stored ones, random ones, and netlists that no compile made.

use std::collections::BTreeSet;
use std::ffi::OsStr;
use std::fs;
use std::path::{Path, PathBuf};

use cases::{any_matrix, any_netlist, bank, filled, plain_netlist, Matrix, Random};

use crate::declared::Declared;

pub const WIDTHS: [u8; 5] = [8, 12, 16, 20, 24];

pub struct Bank {
    pub name: String,
    pub netlist: Vec<u8>,
    /// What it computes, where that is known.
    pub matrix: Option<Matrix>,
}

impl Bank {
    pub fn compiled(matrix: Matrix, width: u8) -> Self {
        let mut netlist = vec![0; zaatarloft::NETLIST_BYTES];
        let compiled = zaatarloft::compile(&matrix.record(), width, &mut netlist).unwrap();
        netlist.truncate(compiled.written);
        Bank {
            name: format!("compiled of {:?} for {width} bits", matrix.rows),
            netlist,
            matrix: Some(matrix),
        }
    }

    /// One that somebody else compiled, or nobody.
    fn of_netlist(netlist: Vec<u8>) -> Self {
        Bank {
            name: format!("netlist {netlist:?}"),
            netlist,
            matrix: None,
        }
    }

    /// The module's text, as the library writes it.
    pub fn module(&self) -> String {
        let mut buffer = vec![0; zaatarloft::VERILOG_BYTES];
        let written = zaatarloft::write_verilog(&self.netlist, &mut buffer).unwrap();
        buffer.truncate(written);
        String::from_utf8(buffer).unwrap()
    }

    /// Row times vector; of a netlist without a matrix what the independent implementation's run gives.
    pub fn outputs(&self, samples: &[i32]) -> Vec<i64> {
        match &self.matrix {
            Some(matrix) => matrix.times(samples),
            None => {
                let m = reference::read(&self.netlist).unwrap().m;
                let mut outputs = vec![0; usize::from(m)];
                reference::run(&self.netlist, samples, &mut outputs).unwrap();
                outputs
            }
        }
    }
}

/// Document 01's example of a module: a sum of sums, a minus output, a zero output.
pub fn three_outputs() -> Matrix {
    Matrix::of_rows(&[&[3, -3], &[-1, 0], &[0, 0]])
}

/// The marked banks of document 01, and banks of extremes.
fn marked() -> Vec<Matrix> {
    vec![
        three_outputs(),
        Matrix::of_rows(&[&[21]]),
        Matrix::of_rows(&[&[85]]),
        Matrix::of_rows(&[&[1365]]),
        Matrix::of_rows(&[&[1, 1]]),
        Matrix::of_rows(&[&[-1]]),
        Matrix::of_rows(&[&[0]]),
        Matrix::of_rows(&[&[-32_768; 8]]),
        Matrix::of_rows(&[&[-3, 5, 7, -1]]),
        Matrix::of_rows(&[&[5], &[0], &[-1], &[-2]]),
        Matrix::of_rows(&[&[1, 1, 1, 1, 1], &[1, 1, 1, 0, 0], &[0, 0, 0, 1, 1]]),
        Matrix::of_rows(&[&[-32_768; 8], &[32_767; 8], &[21_845; 8], &[-21_846; 8]]),
    ]
}

/// The files of a folder of the repository that have this ending, in the order of their names.
fn files(folder: &str, ending: &str) -> Vec<Vec<u8>> {
    let folder = Path::new(env!("CARGO_MANIFEST_DIR"))
        .join("..")
        .join(folder);
    let all = fs::read_dir(folder).unwrap();
    let all: BTreeSet<PathBuf> = all.map(|file| file.unwrap().path()).collect();
    let named = all
        .iter()
        .filter(|path| path.extension() == Some(OsStr::new(ending)));
    let files: Vec<Vec<u8>> = named.map(|path| fs::read(path).unwrap()).collect();
    assert!(!files.is_empty());
    files
}

/// The matrix of a record that has rows.
fn of_record(record: &[u8]) -> Matrix {
    let (n, mut bytes) = (usize::from(record[5]), record[6..].chunks(2));
    let matrix = filled(usize::from(record[4]), n, || {
        let coefficient = bytes.next().unwrap();
        i16::from_le_bytes([coefficient[0], coefficient[1]])
    });
    assert_eq!(matrix.record(), record);
    matrix
}

/// Two of the largest size: random coefficients, and both extremes in random order.
fn largest() -> Vec<Matrix> {
    let mut random = Random::new(8);
    let any = bank(&mut random, 8, 8, 16);
    let extremes = filled(8, 8, || random.choose(&[i16::MIN, i16::MAX]));
    vec![any, extremes]
}

/// Stored banks, the marked ones for samples of each width, and the stored netlists that read accepts.
pub fn stored() -> Vec<Bank> {
    let compiled_for = |width| move |matrix| Bank::compiled(matrix, width);
    let mut banks = Vec::new();
    for width in WIDTHS {
        banks.extend(marked().into_iter().map(compiled_for(width)));
    }
    for width in [16, 24] {
        banks.extend(largest().into_iter().map(compiled_for(width)));
    }
    let examples = files("examples", "matrix");
    banks.extend(
        examples
            .iter()
            .map(|record| Bank::compiled(of_record(record), 16)),
    );
    let netlists = files("tests/verilog", "netlist").into_iter();
    let has_rows = |netlist: &Vec<u8>| matches!(reference::read(netlist), Ok(read) if read.m > 0);
    banks.extend(netlists.filter(has_rows).map(Bank::of_netlist));
    banks
}

/// So many random banks follow from the seeds from the first on.
pub const FIRST_SEED: u64 = 30_000_000;
pub const SEEDS: u64 = 250;

/// A bank of any size and width: compiled, or summed in another order, or of any operations that read accepts.
pub fn any_of_seed(random: &mut Random) -> Bank {
    let width = random.choose(&WIDTHS);
    let matrix = any_matrix(random, 8, 8);
    match random.between(0, 3) {
        0 => any_operations(random, width, &matrix),
        1 => match plain_netlist(random, width, &matrix) {
            Some(netlist) => Bank {
                name: format!("plain sums of {:?} for {width} bits", matrix.rows),
                netlist,
                matrix: Some(matrix),
            },
            None => Bank::compiled(matrix, width),
        },
        _ => Bank::compiled(matrix, width),
    }
}

/// A netlist of any operations, of the matrix's size; one of which a width exceeds the limit is drawn again.
fn any_operations(random: &mut Random, width: u8, matrix: &Matrix) -> Bank {
    loop {
        let operations = random.between(1, 40);
        let netlist = any_netlist(random, width, matrix.m(), matrix.n(), operations);
        if reference::read(&netlist).is_ok() {
            return Bank::of_netlist(netlist);
        }
    }
}

/// What the random banks are drawn for does occur among them.
#[test]
fn random_banks_are_of_all_kinds() {
    let seeds = FIRST_SEED..FIRST_SEED + SEEDS;
    let banks: Vec<Bank> = seeds
        .map(|seed| any_of_seed(&mut Random::new(seed)))
        .collect();
    let declared = || banks.iter().map(|bank| Declared::of_netlist(&bank.netlist));
    let widths: BTreeSet<u8> = declared().map(|bank| bank.sample_width).collect();
    assert_eq!(widths, BTreeSet::from(WIDTHS));
    let inputs: BTreeSet<usize> = declared().map(|bank| bank.inputs).collect();
    assert_eq!(inputs, (1..=8).collect());
    let outputs: BTreeSet<usize> = declared().map(|bank| bank.outputs.len()).collect();
    assert_eq!(outputs, (1..=8).collect());

    let mut cells = declared().flat_map(|bank| bank.adders.into_keys());
    assert!(cells.any(|cell| cell.starts_with("$neg")), "minus outputs");
    let narrower = banks.iter().filter(|bank| bank.matrix.is_none());
    let mut narrower = narrower.map(|bank| Declared::of_netlist(&bank.netlist).narrower);
    assert!(narrower.any(|count| count > 0), "narrower targets");

    let matrices = || banks.iter().filter_map(|bank| bank.matrix.as_ref());
    let mut rows = matrices().flat_map(|matrix| &matrix.rows);
    assert!(rows.any(|row| row.iter().all(|&c| c == 0)), "zero rows");
    for extreme in [i16::MIN, i16::MAX] {
        let mut coefficients = matrices().flat_map(|matrix| matrix.rows.iter().flatten());
        assert!(coefficients.any(|&c| c == extreme), "{extreme}");
    }
}
