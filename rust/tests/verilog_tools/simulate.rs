//! Icarus Verilog: modules are simulated on many vectors, and every output compared.

use cases::{each, Matrix, Random};

use crate::banks::{any_of_seed, stored, Bank, FIRST_SEED, SEEDS};
use crate::declared::{signal, Declared};
use crate::tools::{Answer, Fault, Folder};

/// Random vectors of each module, besides those at the ends.
const RANDOM_VECTORS: usize = 100;

/// Every vector of lowest and highest samples, steep fronts among them, for there each row and each sum has its ends; then random ones.
fn vectors(n: usize, width: u8, random: &mut Random) -> Vec<Vec<i32>> {
    let end = 1 << (width - 1);
    let sample = |corner: usize, j: usize| if corner >> j & 1 == 1 { end - 1 } else { -end };
    let corner = |corner| (0..n).map(|j| sample(corner, j)).collect();
    let mut vectors: Vec<Vec<i32>> = (0..1 << n).map(corner).collect();
    vectors.extend((0..RANDOM_VECTORS).map(|_| random.samples(width, n)));
    vectors
}

/// The samples for `$readmemh`, a vector a line, in hexadecimal two's complement.
fn memory(vectors: &[Vec<i32>], width: u8) -> String {
    let bits = |sample: &i32| format!("{:x} ", sample & ((1 << width) - 1));
    let line = |vector: &Vec<i32>| vector.iter().map(bits).collect::<String>() + "\n";
    vectors.iter().map(line).collect()
}

/// A module that lends the bank vector after vector and prints the outputs of each in a line.
fn testbench(declared: &Declared, vectors: usize) -> String {
    let (inputs, outputs) = (declared.input_ports(), declared.output_ports());
    let n = inputs.len();
    let mut text = String::from("module testbench;\n  integer k;\n");
    let samples = (
        format!("samples [0:{}]", n * vectors - 1),
        declared.sample_width,
    );
    text += &signal("reg", &samples);
    text.extend(inputs.iter().map(|port| signal("reg", port)));
    text.extend(outputs.iter().map(|port| signal("wire", port)));
    text += &declared.instance();
    text += "  initial begin\n    $readmemh(\"samples\", samples);\n";
    text += &format!("    for (k = 0; k < {vectors}; k = k + 1) begin\n");
    for (j, (name, _)) in inputs.iter().enumerate() {
        text += &format!("      {name} = samples[{n} * k + {j}];\n");
    }
    let numbers = vec!["%0d"; outputs.len()].join(" ");
    let names: Vec<&str> = outputs.iter().map(|(name, _)| name.as_str()).collect();
    text += &format!("      #1 $display(\"{numbers}\", {});\n", names.join(", "));
    text + "    end\n  end\nendmodule\n"
}

/// A line as the testbench prints it.
fn line(outputs: &[i64]) -> String {
    let numbers: Vec<String> = outputs.iter().map(i64::to_string).collect();
    numbers.join(" ")
}

/// Icarus reads the files without a word, as Verilog of 2005 and with all warnings; then the simulation is run.
fn compile_and_run(folder: &Folder, sources: &[&str]) -> Result<Answer, Fault> {
    let options = ["-g2005", "-Wall", "-o", "simulation"];
    let arguments = [&options[..], sources].concat();
    folder.run("iverilog", &arguments).silent()?;
    Ok(folder.run("vvp", &["-n", "simulation"]))
}

/// Icarus reads the text without a word, and the simulated outputs are those of the bank, for every vector.
pub fn simulate(bank: &Bank, module: &str, random: &mut Random) -> Result<(), Fault> {
    let declared = Declared::of_netlist(&bank.netlist);
    let vectors = vectors(declared.inputs, declared.sample_width, random);
    let folder = Folder::new();
    folder.write("bank.v", module);
    folder.write("samples", &memory(&vectors, declared.sample_width));
    folder.write("testbench.v", &testbench(&declared, vectors.len()));
    let answer = compile_and_run(&folder, &["bank.v", "testbench.v"])?;
    let mut lines = answer.text.lines();
    for samples in vectors {
        let simulated = lines.next().unwrap_or("no line").to_owned();
        let expected = line(&bank.outputs(&samples));
        if simulated != expected {
            return Err(Fault::Outputs {
                samples,
                simulated,
                expected,
            });
        }
    }
    match lines.next() {
        None if answer.succeeded => Ok(()),
        _ => Err(Fault::Said(answer.text)),
    }
}

fn assert_simulated(bank: &Bank, random: &mut Random) {
    let module = bank.module();
    if let Err(fault) = simulate(bank, &module, random) {
        panic!("{}: {fault:?}\n{module}", bank.name);
    }
}

#[test]
fn stored_banks() {
    let mut random = Random::new(9);
    for bank in stored() {
        assert_simulated(&bank, &mut random);
    }
}

#[test]
fn random_banks() {
    each(FIRST_SEED, SEEDS, |random| {
        let bank = any_of_seed(random);
        assert_simulated(&bank, random);
    });
}

/// The module of no rows has no ports: Icarus takes it by itself, and it does nothing.
#[test]
fn no_rows() {
    for width in [16, 24] {
        let bank = Bank::compiled(Matrix::of_rows(&[]), width);
        let folder = Folder::new();
        folder.write("bank.v", &bank.module());
        let answer = compile_and_run(&folder, &["bank.v"]).unwrap();
        answer.silent().unwrap();
    }
}

/// Each sample meets both ends of its width, alone and with all others.
#[test]
fn vectors_have_both_ends() {
    for (n, width) in (1..=8).flat_map(|n| [8, 24].map(|width| (n, width))) {
        let end = 1 << (width - 1);
        let vectors = vectors(n, width, &mut Random::new(1));
        assert_eq!(vectors.len(), (1 << n) + RANDOM_VECTORS);
        for front in 0..=n {
            let rising = [vec![-end; front], vec![end - 1; n - front]].concat();
            let falling = [vec![end - 1; front], vec![-end; n - front]].concat();
            assert!(vectors.contains(&rising) && vectors.contains(&falling));
        }
    }
}
