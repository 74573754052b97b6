//! Measures both sides and writes docs/BENCHMARKS.md: bench FOLDER-OF-THE-REPOSITORY.

mod burn_in;
mod depths;
mod lists;
mod machine;
mod occurrences;
mod programs;
mod tables;
mod text;
mod times;

use std::path::{Path, PathBuf};
use std::{env, fs};

use bench::{Call, CALLS, SIDES};
use lists::{List, LISTS};
use programs::Figures;
use times::{Banks, Times};

/// Between these lines docs/BENCHMARKS.md is written anew.
const BEGIN: &str = "<!-- measured: begin -->";
const END: &str = "<!-- measured: end -->";

/// Sizes and coefficient sizes that are measured: growing banks, then growing coefficients.
const MEASURED: [(usize, u32); 11] = [
    (1, 16),
    (2, 16),
    (3, 16),
    (4, 16),
    (5, 16),
    (6, 16),
    (7, 16),
    (8, 4),
    (8, 8),
    (8, 12),
    LARGEST,
];
const LARGEST: (usize, u32) = (8, 16);

const ROUNDS: usize = 15;
const BANKS: usize = 21;

/// Figures for banks of one size and coefficient size.
pub struct Growth {
    size: usize,
    bits: u32,
    operations: f64,
    /// Of compile: verified, independent.
    instructions: [f64; 2],
    /// Occurrences that elimination touches, on the same banks as instructions.
    touched: f64,
    compile: Times,
    read: Times,
}

impl Growth {
    fn of(size: usize, bits: u32, banks: &Banks, folder: &Path) -> Self {
        let count = |side| programs::instructions(folder, Call::Compile, side, size, bits);
        Growth {
            size,
            bits,
            operations: banks.operations(),
            instructions: SIDES.map(count),
            touched: occurrences::touched(size, bits),
            compile: banks.times(Call::Compile),
            read: banks.times(Call::Read),
        }
    }
}

fn main() {
    let root = PathBuf::from(env::args().nth(1).expect("the folder of the repository"));
    let program = env::current_exe().expect("this program's path");
    let folder = program.parent().expect("this program's folder");
    let machine = machine::description(&root);

    let banks = |(size, bits)| Banks::new(size, size, bits, BANKS, &calls_on(size, bits));
    let mut all = MEASURED.map(banks);
    times::measure(&mut all, ROUNDS);
    let largest = &all[MEASURED.len() - 1];
    let calls = CALLS.map(|call| largest.times(call));
    let lists = LISTS.map(|vectors| List::of(vectors, largest));
    let growth = |(&(size, bits), banks)| Growth::of(size, bits, banks, folder);
    let growths: Vec<Growth> = MEASURED.iter().zip(&all).map(growth).collect();
    let sizes: Vec<&Growth> = growths.iter().filter(|g| g.bits == 16).collect();
    let bits: Vec<&Growth> = growths.iter().filter(|g| g.size == 8).collect();
    let count = |call, side| programs::instructions(folder, call, side, 8, 16);
    let instructions = Figures::of(count);
    let memory = programs::memory(folder);
    let burn_in = burn_in::RUNS.map(|(seeds, step)| (seeds, burn_in::times(step)));

    let mut text = String::new();
    tables::ratios(&mut text, &calls, &instructions);
    tables::growth(&mut text, "m by n", &sizes, |g| {
        format!("{0} by {0}", g.size)
    });
    tables::growth(&mut text, "coefficient size", &bits, |g| {
        format!("{} bits", g.bits)
    });
    tables::touched(&mut text, &sizes);
    tables::lists(&mut text, largest, &lists);
    tables::burn_in(&mut text, &burn_in);
    let drawn = depths::drawn();
    tables::depths(&mut text, &drawn);
    tables::published_depths(&mut text, &depths::published());
    tables::negated_outputs(&mut text, &drawn);
    tables::memory(&mut text, &memory);
    tables::absolute(&mut text, &calls, &instructions, &machine);
    replace_measured(&root.join("docs/BENCHMARKS.md"), &text);
    println!("{text}");
}

/// The calls that are measured on banks of a size and coefficient size: on the largest all, and clock on every list.
fn calls_on(size: usize, bits: u32) -> Vec<Call> {
    if (size, bits) != LARGEST {
        return vec![Call::Compile, Call::Read];
    }
    let lists = LISTS.into_iter().map(Call::Clock);
    let other_lists = lists.filter(|call| !CALLS.contains(call));
    CALLS.into_iter().chain(other_lists).collect()
}

fn replace_measured(path: &Path, measured: &str) {
    let old = fs::read_to_string(path).expect("docs/BENCHMARKS.md");
    let begin = old.find(BEGIN).expect("the begin line") + BEGIN.len();
    let end = old.find(END).expect("the end line");
    let new = format!("{}\n\n{measured}\n{}", &old[..begin], &old[end..]);
    fs::write(path, new).expect("docs/BENCHMARKS.md is written");
}
