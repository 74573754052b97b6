//! Instructions and memory, which programs of their own measure: `instructions` under callgrind, and `memory`.

use std::collections::HashMap;
use std::path::Path;
use std::process::Command;

use bench::{Call, Side, CALLS, SIDES};

/// How many banks callgrind counts.
pub const COUNTED: usize = 6;

/// Figures for each call and side.
pub struct Figures<T>(HashMap<(&'static str, &'static str), T>);

impl<T: Copy> Figures<T> {
    pub fn of(mut figure: impl FnMut(Call, Side) -> T) -> Self {
        let mut figures = HashMap::new();
        for call in CALLS {
            for side in SIDES {
                figures.insert((call.name(), side.name()), figure(call, side));
            }
        }
        Figures(figures)
    }

    pub fn verified(&self, call: Call) -> T {
        self.0[&(call.name(), Side::Verified.name())]
    }

    pub fn independent(&self, call: Call) -> T {
        self.0[&(call.name(), Side::Independent.name())]
    }
}

/// Instructions of one call on banks of a size and coefficient size.
pub fn instructions(folder: &Path, call: Call, side: Side, size: usize, bits: u32) -> f64 {
    let output = Command::new("valgrind")
        .args(["--tool=callgrind", "--toggle-collect=measured"])
        .arg("--callgrind-out-file=/dev/null")
        .arg(folder.join("instructions"))
        .args([call.name(), side.name()])
        .args([COUNTED.to_string(), size.to_string(), bits.to_string()])
        .output()
        .expect("valgrind runs");
    let printed = String::from_utf8_lossy(&output.stderr).into_owned();
    let line = printed.lines().find(|line| line.contains("Collected :"));
    let count = line.and_then(|line| line.split_whitespace().last());
    let count: f64 = count.and_then(|word| word.parse().ok()).expect("a count");
    count / COUNTED as f64
}

/// Peak bytes of one call.
#[derive(Clone, Copy)]
pub struct Memory {
    pub stack: f64,
    pub heap: f64,
}

pub fn memory(folder: &Path) -> Figures<Memory> {
    let output = Command::new(folder.join("memory")).output();
    let output = output.expect("memory runs");
    assert!(output.status.success());
    let printed = String::from_utf8(output.stdout).expect("text");
    Figures::of(|call, side| {
        let start = format!("{} {} ", call.name(), side.name());
        let rest = printed.lines().find_map(|line| line.strip_prefix(&start));
        let words = rest.expect("a line for each call").split_whitespace();
        let numbers: Vec<f64> = words.map(|word| word.parse().expect("a number")).collect();
        Memory {
            stack: numbers[0],
            heap: numbers[1],
        }
    })
}
