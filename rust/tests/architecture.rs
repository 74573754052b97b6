//! The lists of docs/ARCHITECTURE.md are complete: the map has every crate, functions are named in crates that there are, and the files
//! that a reader must believe are those that the promises' definitions cite.

use std::collections::BTreeSet;
use std::fs;
use std::path::{Path, PathBuf};

const ARCHITECTURE: &str = include_str!("../../docs/ARCHITECTURE.md");
const CRATES: &str = include_str!("../../crates.txt");

/// The definitions that contracts of public functions, and the theorems of docs/CLAIM.md, cite, by the list in which they stand first.
const PROMISES: [(&str, &[&str]); 6] = [
    (
        "calls",
        &[
            "compile_rules/Compile",
            "layout_rules/Step",
            "netlist_rules/Read",
            "netlist_rules/Check",
            "netlist_rules/Run",
            "generator/Generator",
            "market_rules/Market",
            "verilog_rules/Answer",
            "clock_rules/Answer",
        ],
    ),
    (
        "claims",
        &[
            "bank_rules/Claim",
            "netlist_rules/Exact",
            "compile_rules/Compiled",
            "sum_rules/Signs",
            "elimination_rules/Negated",
            "generator/States",
            "market_rules/File",
            "verilog_rules/Claim",
        ],
    ),
    (
        "tests",
        &[
            "compile_rules/Tests",
            "netlist_rules/Tests",
            "generator/Tests",
            "market_rules/Tests",
            "verilog_rules/Tests",
            "clock_rules/Tests",
        ],
    ),
    ("clocked", &["clock_rules/Claim", "clock_rules/Pipelined"]),
    ("kept", &["kept_rules/Kept"]),
    (
        "programs",
        &[
            "bank_text/BankText",
            "compile_output/CompileOutput",
            "run_text/RunText",
            "clock_text/ClockText",
            "check_text/CheckText",
            "generate_output/GenerateOutput",
            "market_output/MarketOutput",
            "verilog_output/VerilogOutput",
            "burn_in_text/BurnInText",
        ],
    ),
];

fn specs(file: &str) -> PathBuf {
    let (name, module) = file.split_once('/').unwrap();
    let crates = Path::new(env!("CARGO_MANIFEST_DIR")).join("../crates");
    crates.join(name).join(format!("specs/{module}.antt"))
}

/// The files of specs/ that a line such as `use Rattle.limits.specs.Size.{size_outside}` imports, as `limits/Size`. Structs, which are
/// declared in src/, have no such file, nor has the standard library.
fn imported(line: &str) -> Option<String> {
    let path = line.strip_prefix("use Rattle.")?.split(['{', ' ']).next()?;
    let mut parts = path.split('.').filter(|part| !part.is_empty());
    let name = parts.next()?;
    let module = parts.find(|part| *part != "specs")?;
    (crates().contains(name) && module != "declared").then(|| format!("{name}/{module}"))
}

/// Adds a file and all that it imports.
fn follow(file: &str, found: &mut BTreeSet<String>) {
    if !found.insert(file.to_owned()) {
        return;
    }
    let text = fs::read_to_string(specs(file)).unwrap_or_else(|error| panic!("{file}: {error}"));
    for other in text.lines().filter_map(imported) {
        follow(&other, found);
    }
}

/// The words in backquotes.
fn quoted(text: &str) -> impl Iterator<Item = &str> {
    text.split('`').skip(1).step_by(2)
}

/// The files in the table behind a mark: a crate in the first cell, its files in the second.
fn listed(list: &str) -> BTreeSet<String> {
    let mark = format!("<!-- believed: {list} -->\n");
    let (_, behind) = ARCHITECTURE.split_once(&mark).expect("the list's mark");
    let mut files = BTreeSet::new();
    for row in behind.lines().take_while(|line| line.starts_with('|')) {
        let mut words = quoted(row);
        if let Some(name) = words.next() {
            files.extend(words.map(|module| format!("{name}/{module}")));
        }
    }
    files
}

#[test]
fn believed_files_are_listed() {
    let mut earlier = BTreeSet::new();
    for (list, promises) in PROMISES {
        let mut found = earlier.clone();
        for promise in promises {
            follow(promise, &mut found);
        }
        let new: BTreeSet<String> = found.difference(&earlier).cloned().collect();
        assert_eq!(listed(list), new, "the list of {list}");
        earlier = found;
    }
}

/// The names in crates.txt.
fn crates() -> BTreeSet<&'static str> {
    let lines = CRATES.lines().filter(|line| !line.starts_with('#'));
    let names = lines.filter_map(|line| line.split_once(':'));
    // what the crate is stands behind its name, as `zaatarloft staticlib`
    let words = names.filter_map(|(name, _)| name.split_whitespace().next());
    words.collect()
}

/// A name as `compile_sums::sum_rows` begins with its crate, or with a struct.
#[test]
fn named_functions_stand_in_crates() {
    let paths = quoted(ARCHITECTURE).filter_map(|name| name.split_once("::"));
    let firsts: BTreeSet<&str> = paths.map(|(first, _)| first).collect();
    let named = firsts
        .iter()
        .filter(|name| name.starts_with(char::is_lowercase));
    let gone: Vec<&&str> = named.filter(|name| !crates().contains(*name)).collect();
    assert!(firsts.len() > 10, "only {firsts:?}");
    assert!(gone.is_empty(), "no crates: {gone:?}");
}

#[test]
fn map_has_every_crate() {
    let (_, map) = ARCHITECTURE
        .split_once("## Crates, lowest first\n")
        .expect("the map");
    let first_cells = map.lines().filter_map(|line| line.split('|').nth(1));
    let mapped: BTreeSet<&str> = first_cells.flat_map(quoted).collect();
    let unmapped: Vec<&str> = crates().difference(&mapped).copied().collect();
    assert!(unmapped.is_empty(), "not in the map: {unmapped:?}");
}
