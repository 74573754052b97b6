//! The burn-in run of both sides: 8 by 8 banks of 1,000 seeds, each generated, compiled and checked, by the run's processor time.

use bench::{Side, NETLIST_ROOM, SAMPLE_WIDTH, SIDES};

use crate::times::processor_time;

/// Seeds of a run, and how many of them a side takes in its turn.
const COUNT: u32 = 1000;
const TURN: u32 = 50;

/// The seeds of each run go up by so much, wrapping at 32 bits.
pub const RUNS: [(&str, u32); 2] = [("0 to 999", 1), ("spread", 19_088_743)];

/// The bytes of an 8 by 8 record.
const RECORD: usize = zaatarloft::MATRIX_BYTES;

fn bank(side: Side, seed: u32) {
    let (mut record, mut netlist) = ([0; RECORD], [0; NETLIST_ROOM]);
    let checked = match side {
        Side::Verified => zaatarloft::generate(8, 8, seed, &mut record)
            .and_then(|_| zaatarloft::compile(&record, SAMPLE_WIDTH, &mut netlist))
            .and_then(|compiled| zaatarloft::check(&record, &netlist[..compiled.written]))
            .is_ok(),
        Side::Independent => reference::generate(8, 8, seed, &mut record)
            .and_then(|_| reference::compile(&record, SAMPLE_WIDTH, &mut netlist))
            .and_then(|compiled| reference::check(&record, &netlist[..compiled.written]))
            .is_ok(),
    };
    assert!(checked);
}

/// Seconds of a run, of each side; the sides take turns, so that both meet the machine in the same state.
pub fn times(step: u32) -> [f64; 2] {
    let mut times = [0.0; 2];
    for first in (0..COUNT).step_by(TURN as usize) {
        for (side, time) in SIDES.into_iter().zip(&mut times) {
            let before = processor_time();
            for k in first..first + TURN {
                bank(side, step.wrapping_mul(k));
            }
            *time += processor_time() - before;
        }
    }
    times
}
