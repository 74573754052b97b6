//! Writes what each program reads in the gate, and what it must print, into crates/NAME/stdin and crates/NAME/stdout, and
//! tests/burn-in-spread.out:
//!
//!     cd rust && cargo run --release --offline -p stored_cases ..
//!
//! The choice of cases is deterministic. Expected outputs are those of `reference` and never of the programs under test, whose
//! sources say how their input is laid out. `cargo test` compares the stored files with what this writes.

mod burn_in;
mod case;
mod check;
mod compile;
mod matrices;
mod mersenne_twister;
mod netlists;
mod run;
mod scores;
#[cfg(test)]
mod ties;
mod widths;

use std::path::{Path, PathBuf};
use std::{env, fs};

use case::Case;
use matrices::{netlist, three_minus_three, MATRIX_ROOM, VERILOG_ROOM};

/// The programs by name.
fn programs() -> [(&'static str, Case); 10] {
    [
        ("test_calls", test_calls()),
        ("test_scores", scores::test_scores()),
        ("list_bank", list_bank()),
        ("run_bank", run_bank()),
        ("compile_bank", compile_bank()),
        ("check_bank", check_bank()),
        ("generate_bank", generate_bank()),
        ("matrix_market", matrix_market()),
        ("verilog_bank", verilog_bank()),
        ("burn_in", burn_in::burn_in()),
    ]
}

fn test_calls() -> Case {
    let mut all = Case::default();
    for cases in [compile::cases(), check::cases(), run::cases()] {
        for case in cases {
            all.stdin.extend(case.stdin);
            all.stdout.extend(case.stdout);
        }
    }
    all
}

/// Document 01's example, and its text word for word.
fn list_bank() -> Case {
    let lines = "inputs 2 outputs 1 operations 2 plain 3 divisors 1 replacements 2 depth 2\n\
                 2 = 0<<0 - 1<<0 width 17\n\
                 3 = 2<<2 - 2<<0 width 19\n\
                 row 0 = 3<<0 width 19\n";
    Case {
        stdin: [&[16], &three_minus_three().record()[..]].concat(),
        stdout: lines.into(),
    }
}

fn compile_bank() -> Case {
    let record = include_bytes!("../../../examples/smoothing-and-slope.matrix");
    Case {
        stdin: [&[16], &record[..]].concat(),
        stdout: netlist(record),
    }
}

fn check_bank() -> Case {
    let record = three_minus_three().record();
    let netlist = netlist(&record);
    assert_eq!(reference::check(&record, &netlist), Ok(()));
    let length = (record.len() as u32).to_le_bytes();
    Case {
        stdin: [&length[..], &record, &netlist].concat(),
        stdout: b"accepted\n".to_vec(),
    }
}

fn run_bank() -> Case {
    let netlist = netlist(&three_minus_three().record());
    let samples: [i32; 2] = [32_767, -32_768];
    let mut outputs = [0];
    assert_eq!(reference::run(&netlist, &samples, &mut outputs), Ok(()));
    let length = (netlist.len() as u16).to_le_bytes();
    let samples = samples.map(i32::to_le_bytes).concat();
    Case {
        stdin: [&length[..], &netlist, &samples].concat(),
        stdout: format!("{}\n", outputs[0]).into_bytes(),
    }
}

/// The first seed whose bank is not that of seed 0.
fn generate_bank() -> Case {
    let seed: u32 = 979;
    let mut record = vec![0; MATRIX_ROOM];
    let written = reference::generate(8, 8, seed, &mut record);
    assert_eq!(written, Ok(record.len()));
    Case {
        stdin: [&[8, 8][..], &seed.to_le_bytes()].concat(),
        stdout: record,
    }
}

/// The filters that `compile_bank` compiles.
fn matrix_market() -> Case {
    let file = include_bytes!("../../../examples/smoothing-and-slope.mtx");
    let mut record = vec![0; MATRIX_ROOM];
    let written = reference::read_matrix_market(file, &mut record);
    record.truncate(written.expect("a right file"));
    Case {
        stdin: file.to_vec(),
        stdout: record,
    }
}

/// The netlist whose module document 01 shows.
fn verilog_bank() -> Case {
    let netlist = include_bytes!("../../../tests/verilog/documented-module.netlist");
    let mut text = vec![0; VERILOG_ROOM];
    let written = reference::write_verilog(netlist, &mut text);
    text.truncate(written.expect("a right netlist"));
    Case {
        stdin: netlist.to_vec(),
        stdout: text,
    }
}

/// The stored files under the repository's folder, and what they hold.
fn files(root: &Path) -> Vec<(PathBuf, Vec<u8>)> {
    let spread = root.join("tests/burn-in-spread.out");
    let mut all = vec![(spread, burn_in::spread_lines())];
    for (name, case) in programs() {
        let folder = root.join("crates").join(name);
        all.push((folder.join("stdin"), case.stdin));
        all.push((folder.join("stdout"), case.stdout));
    }
    all
}

fn main() {
    let root = env::args().nth(1).expect("the repository's folder");
    for (path, bytes) in files(Path::new(&root)) {
        fs::write(&path, bytes).unwrap_or_else(|error| panic!("{}: {error}", path.display()));
    }
}

#[cfg(test)]
mod tests {
    use super::*;

    #[test]
    fn stored_files_are_those_made() {
        let root = Path::new(env!("CARGO_MANIFEST_DIR")).join("../..");
        let mut files = files(&root);
        files.retain(|(path, bytes)| fs::read(path).ok().as_ref() != Some(bytes));
        let others: Vec<PathBuf> = files.into_iter().map(|(path, _)| path).collect();
        assert!(others.is_empty(), "missing or different: {others:?}");
    }
}
