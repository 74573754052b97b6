//! Calls of the tools: each in a temporary folder of its own, and none for longer than a time limit.

use std::collections::BTreeMap;
use std::path::PathBuf;
use std::process::{self, Command};
use std::sync::atomic::{AtomicUsize, Ordering};
use std::{env, fs};

/// The longest that a call of a tool may take, in seconds.
const MOST_SECONDS: &str = "120";

/// How often each cell occurs, by its name.
pub type Cells = BTreeMap<String, usize>;

/// What a tool finds wrong with a module.
#[derive(Debug)]
#[allow(dead_code)] // the fields are there to be shown where a test fails
pub enum Fault {
    /// A tool printed what it should not have, or failed.
    Said(String),
    /// Simulated outputs are not those expected, first for these samples.
    Outputs {
        samples: Vec<i32>,
        simulated: String,
        expected: String,
    },
    /// Other cells than the adders that the netlist names.
    Adders { found: Cells, expected: Cells },
    /// Some samples have other outputs than row times vector.
    Unequal,
}

/// What a tool printed, on both channels, and whether it succeeded.
pub struct Answer {
    pub text: String,
    pub succeeded: bool,
}

impl Answer {
    /// Tools that have nothing to warn of say nothing.
    pub fn silent(self) -> Result<(), Fault> {
        if self.succeeded && self.text.is_empty() {
            Ok(())
        } else {
            Err(Fault::Said(self.text))
        }
    }
}

/// A temporary folder, removed at the end with all that is in it.
pub struct Folder {
    path: PathBuf,
}

impl Folder {
    pub fn new() -> Self {
        static MADE: AtomicUsize = AtomicUsize::new(0);
        let number = MADE.fetch_add(1, Ordering::Relaxed);
        let name = format!("zaatarloft-verilog-{}-{number}", process::id());
        let path = env::temp_dir().join(name);
        fs::create_dir(&path).unwrap();
        Folder { path }
    }

    pub fn write(&self, file: &str, text: &str) {
        fs::write(self.path.join(file), text).unwrap();
    }

    pub fn read(&self, file: &str) -> String {
        fs::read_to_string(self.path.join(file)).unwrap()
    }

    /// Runs a tool here. `timeout` ends the tool's own children too.
    pub fn run(&self, tool: &str, arguments: &[&str]) -> Answer {
        let output = Command::new("timeout")
            .args(["--kill-after=5", MOST_SECONDS, tool])
            .args(arguments)
            .current_dir(&self.path)
            .output()
            .expect("timeout, of Debian's package coreutils, can be run");
        let printed = [output.stdout, output.stderr].concat();
        let text = String::from_utf8_lossy(&printed).into_owned();
        match output.status.code() {
            Some(124 | 137) | None => panic!("{tool} took longer than {MOST_SECONDS} s"),
            Some(126 | 127) => panic!(
                "{tool} cannot be run; Debian's packages iverilog and yosys have what is needed: {text}"
            ),
            Some(status) => Answer {
                text,
                succeeded: status == 0,
            },
        }
    }
}

impl Drop for Folder {
    fn drop(&mut self) {
        // A folder that stays behind is no fault of a module.
        let _ = fs::remove_dir_all(&self.path);
    }
}
