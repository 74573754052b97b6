//! Yosys: the cells of a module, word by word, and a proof that the gates of small ones compute row times vector.

use cases::{each, Matrix};

use crate::banks::{any_of_seed, stored, three_outputs, Bank, FIRST_SEED, SEEDS};
use crate::declared::{signal, Declared};
use crate::tools::{Answer, Cells, Fault, Folder};

/// An empty module is a black box to Yosys unless it is told otherwise. Shifts by constants are wires, and no cells, after `proc`.
const READ: &str =
    "read_verilog -noblackbox bank.v; hierarchy -check -top bank; proc; check -assert";

/// Runs a script of Yosys, which with -q prints warnings and errors alone.
fn yosys(folder: &Folder, script: &str) -> Answer {
    folder.run("yosys", &["-q", "-p", script])
}

/// The cells that Yosys's statistics list: names begin with a dollar sign, and a number stands beside each.
fn cells(statistics: &str) -> Cells {
    let cell = |line: &str| {
        let words: Vec<&str> = line.split_whitespace().collect();
        let name = words.iter().find(|word| word.starts_with('$'))?;
        let count = words.iter().find_map(|word| word.parse().ok())?;
        Some((name.to_string(), count))
    };
    statistics.lines().filter_map(cell).collect()
}

/// Yosys reads the text without a warning and finds one adder ($add, $sub or $neg) of the right width for each operation and each
/// minus output, and no other cell.
pub fn count_adders(bank: &Bank, module: &str) -> Result<(), Fault> {
    let folder = Folder::new();
    folder.write("bank.v", module);
    let script = format!("{READ}; tee -q -o statistics stat -width");
    yosys(&folder, &script).silent()?;
    let found = cells(&folder.read("statistics"));
    let expected = Declared::of_netlist(&bank.netlist).adders;
    if found == expected {
        Ok(())
    } else {
        Err(Fault::Adders { found, expected })
    }
}

/// Of a bank that computes a matrix: other netlists may have sums that are always 0, and Yosys leaves some of these out.
fn assert_adders(bank: &Bank) {
    if bank.matrix.is_none() {
        return;
    }
    let module = bank.module();
    if let Err(fault) = count_adders(bank, &module) {
        panic!("{}: {fault:?}\n{module}", bank.name);
    }
}

/// Among them are adders wider than their target.
#[test]
fn adders_of_stored_banks() {
    let banks = stored();
    banks.iter().for_each(assert_adders);
    let mut compiled = banks.iter().filter(|bank| bank.matrix.is_some());
    assert!(compiled.any(|bank| Declared::of_netlist(&bank.netlist).narrower > 0));
}

#[test]
fn adders_of_random_banks() {
    each(FIRST_SEED, SEEDS, |random| {
        assert_adders(&any_of_seed(random))
    });
}

#[test]
fn no_cells_for_no_rows() {
    let bank = Bank::compiled(Matrix::of_rows(&[]), 16);
    assert!(Declared::of_netlist(&bank.netlist).adders.is_empty());
    assert_adders(&bank);
}

/// A module whose output `same` says whether the bank's outputs are the matrix's rows times the samples, worked in 64 bits.
fn comparison(bank: &Bank) -> String {
    let declared = Declared::of_netlist(&bank.netlist);
    let matrix = bank.matrix.as_ref().expect("a bank that computes a matrix");
    let (inputs, outputs) = (declared.input_ports(), declared.output_ports());
    let names: Vec<&str> = inputs.iter().map(|(name, _)| name.as_str()).collect();
    let mut text = format!(
        "module comparison ({}, same);\n  output same;\n",
        names.join(", ")
    );
    text.extend(inputs.iter().map(|port| signal("input", port)));
    text.extend(outputs.iter().map(|port| signal("wire", port)));
    text += &declared.instance();
    let mut equal = Vec::new();
    for (i, row) in matrix.rows.iter().enumerate() {
        let products = row
            .iter()
            .zip(&names)
            .map(|(c, name)| format!("({c}) * {name}"));
        let sum = products.collect::<Vec<_>>().join(" + ");
        text += &format!("  wire signed [63:0] row{i} = {sum};\n");
        equal.push(format!("row{i} == y{i}"));
    }
    text + &format!("  assign same = {};\nendmodule\n", equal.join(" && "))
}

/// Synthesises the text into gates and proves that these compute row times vector, for all samples.
pub fn prove(bank: &Bank, module: &str) -> Result<(), Fault> {
    let folder = Folder::new();
    folder.write("bank.v", module);
    folder.write("comparison.v", &comparison(bank));
    let gates = format!("{READ}; synth -top bank; check -assert");
    let compared =
        "read_verilog comparison.v; hierarchy -check -top comparison; proc; flatten; opt";
    let proof = "sat -verify -prove same 1 comparison";
    let answer = yosys(&folder, &format!("{gates}; {compared}; {proof}"));
    if answer.text.contains("proof did fail") {
        Err(Fault::Unequal)
    } else {
        answer.silent()
    }
}

/// The gates of small banks, for samples of 8 bits.
#[test]
fn gates_compute_rows_times_samples() {
    for matrix in [
        three_outputs(),
        Matrix::of_rows(&[&[1, 2, -1], &[-4, 0, -5]]),
    ] {
        let bank = Bank::compiled(matrix, 8);
        prove(&bank, &bank.module()).unwrap();
    }
}
