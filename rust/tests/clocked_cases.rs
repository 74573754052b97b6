//! The cases of tests/clocked: registers and clock of the library give what stands in each, and leave the whole store as it says,
//! and so does the independent implementation. README.md there says how a case is laid out.

use std::collections::BTreeSet;
use std::ffi::OsStr;
use std::fmt::Debug;
use std::fs;
use std::path::{Path, PathBuf};
use std::str::FromStr;

/// What each output holds before.
const OLD: i64 = -5;

/// A refusal's number and place.
type Refused = (u8, usize);

struct Case {
    path: PathBuf,
    netlist: Vec<u8>,
    samples: Vec<i32>,
    store: Vec<i64>,
    outputs: Vec<i64>,
    /// What registers has to answer.
    registers: Result<usize, Refused>,
    /// What clock has to answer, and store and outputs afterwards.
    clock: Result<(), Refused>,
    left: Vec<i64>,
    filled: Vec<i64>,
}

/// What stands behind a word in the lines that begin with it.
fn behind<'a>(text: &'a str, word: &str) -> Vec<&'a str> {
    let lines = text
        .lines()
        .map(|line| line.split_once(' ').unwrap_or((line, "")));
    lines
        .filter(|line| line.0 == word)
        .map(|line| line.1)
        .collect()
}

/// The numbers behind a word, all lines of it one behind the other.
fn numbers<T: FromStr>(text: &str, word: &str) -> Vec<T>
where
    T::Err: Debug,
{
    let lines = behind(text, word);
    let words = lines.iter().flat_map(|line| line.split_whitespace());
    words.map(|number| number.parse().unwrap()).collect()
}

/// The refusal that a case says, if it says one.
fn refusal(text: &str) -> Option<Refused> {
    let lines = behind(text, "refused");
    let (number, place) = lines.first()?.split_once(" at ").unwrap();
    Some((number.parse().unwrap(), place.parse().unwrap()))
}

impl Case {
    fn of_file(path: &Path) -> Self {
        let text = fs::read_to_string(path).unwrap();
        let netlist = format!("{}.netlist", behind(&text, "netlist")[0]);
        let (refused, total) = (refusal(&text), numbers(&text, "registers"));
        let store: Vec<i64> = numbers(&text, "store");
        let outputs = vec![OLD; numbers(&text, "outputs")[0]];
        let (left, filled) = match refused {
            Some(_) => (store.clone(), outputs.clone()),
            None => (numbers(&text, "leaves"), numbers(&text, "gives")),
        };
        Case {
            path: path.to_owned(),
            netlist: fs::read(path.with_file_name(netlist)).unwrap(),
            samples: numbers(&text, "samples"),
            store,
            outputs,
            registers: total.first().copied().ok_or_else(|| refused.unwrap()),
            clock: refused.map_or(Ok(()), Err),
            left,
            filled,
        }
    }

    /// Compares both calls with what the case says.
    fn compare(
        &self,
        registers: impl Fn(&[u8]) -> Result<usize, Refused>,
        clock: impl Fn(&[u8], &[i32], &mut [i64], &mut [i64]) -> Result<(), Refused>,
    ) {
        let case = self.path.display();
        assert_eq!(registers(&self.netlist), self.registers, "{case}");
        let (mut store, mut outputs) = (self.store.clone(), self.outputs.clone());
        let answer = clock(&self.netlist, &self.samples, &mut store, &mut outputs);
        assert_eq!(answer, self.clock, "{case}");
        assert_eq!(outputs, self.filled, "outputs of {case}");
        assert_eq!(store, self.left, "store of {case}");
    }
}

/// All files NAME.case, in order.
fn files() -> BTreeSet<PathBuf> {
    let folder = Path::new(env!("CARGO_MANIFEST_DIR")).join("../tests/clocked");
    let paths = fs::read_dir(folder)
        .unwrap()
        .map(|file| file.unwrap().path());
    paths
        .filter(|path| path.extension() == Some(OsStr::new("case")))
        .collect()
}

#[test]
fn each_gives_what_it_says() {
    let verified = |refusal: zaatarloft::Refusal| (refusal.number, refusal.place);
    let independent = |refusal: reference::Refusal| (refusal.number, refusal.place);
    let (files, mut refused) = (files(), Vec::new());
    for path in &files {
        let case = Case::of_file(path);
        case.compare(
            |netlist| zaatarloft::registers(netlist).map_err(verified),
            |netlist, samples, store, outputs| {
                zaatarloft::clock(netlist, samples, store, outputs).map_err(verified)
            },
        );
        case.compare(
            |netlist| reference::registers(netlist).map_err(independent),
            |netlist, samples, store, outputs| {
                reference::clock(netlist, samples, store, outputs).map_err(independent)
            },
        );
        refused.extend(case.clock.err().map(|(number, _)| number));
    }
    assert_eq!((files.len(), refused.len()), (112, 44));
    let numbers = BTreeSet::from_iter(refused);
    assert_eq!(
        numbers,
        BTreeSet::from([6, 7, 8, 9, 10, 11, 12, 15, 16, 21])
    );
}
