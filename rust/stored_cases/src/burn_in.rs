//! The burn-in run: the 8 by 8 bank of each seed is generated, compiled and checked, with a line for each in turn.

use reference::Refusal;

use crate::case::Case;
use crate::matrices::{MATRIX_ROOM, ROOM};

/// Banks of a run.
const COUNT: u32 = 1000;

/// The distance of spread seeds, which wrap at 32 bits. Near seeds have equal banks: 0 to 999 have two banks, spread ones 315.
const SPREAD: u32 = 19_088_743;

/// Reads nothing, and prints the lines of the seeds 0 to 999.
pub fn burn_in() -> Case {
    Case {
        stdin: Vec::new(),
        stdout: lines(0..COUNT),
    }
}

/// The lines of as many spread seeds.
pub fn spread_lines() -> Vec<u8> {
    lines((0..COUNT).map(|k| SPREAD.wrapping_mul(k)))
}

fn lines(seeds: impl Iterator<Item = u32>) -> Vec<u8> {
    seeds.map(line).collect::<String>().into_bytes()
}

fn line(seed: u32) -> String {
    match operations(seed) {
        Ok(operations) => format!("seed {seed} operations {operations}\n"),
        Err(Refusal { number, place }) => format!("seed {seed} refused {number} at {place}\n"),
    }
}

fn operations(seed: u32) -> Result<u16, Refusal> {
    let (mut record, mut netlist) = ([0; MATRIX_ROOM], [0; ROOM]);
    reference::generate(8, 8, seed, &mut record)?;
    let compiled = reference::compile(&record, 16, &mut netlist)?;
    reference::check(&record, &netlist[..compiled.written])?;
    Ok(compiled.operations)
}
