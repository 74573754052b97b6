//! Cases of run: the netlist's length and the number of its runs, the netlist, then for each run the number of samples and of
//! outputs lent (1 byte each) and the samples (4 bytes each). Printed is a line for each run: the answer and what the outputs then hold.

use std::collections::HashSet;
use std::fmt::Write;

use cases::{filled, Matrix};
use reference::returned;

use crate::case::{Call, Case};
use crate::matrices::{
    five_zero_minus_one, matrices, netlist, netlist_at, no_rows, three_minus_three,
};
use crate::mersenne_twister::MersenneTwister;
use crate::netlists::{damaged, handmade};
use crate::widths::{banks_and_widths, ends, small_banks, WIDTHS};

/// What an output holds before.
const OLD: i64 = -(1 << 62);

/// Samples, and the number of outputs lent.
type Run = (Vec<i32>, usize);

/// A netlist and its runs.
type Runs = (Vec<u8>, Vec<Run>);

pub fn cases() -> Vec<Case> {
    let mut random = MersenneTwister::new(&[15_112_026]);
    let sixteen = matrices().into_iter().map(|matrix| (matrix, 16));
    let mut all = compiled(&mut random, sixteen);
    all.extend(wrong_counts());
    all.extend(others(&mut random));
    for netlist in first_damaged() {
        let samples = [vec![127], vec![127, -128], vec![-1], vec![]];
        all.push((netlist, samples.into_iter().zip([1, 1, 3, 0]).collect()));
    }
    all.push(without_rows());
    all.extend(compiled(&mut random, banks_and_widths().into_iter()));
    all.extend(past_the_ends());
    all.iter().map(case).collect()
}

/// Vectors of n samples: the extremes, both alternations of them, steep ramps up and down, random ones.
fn vectors(random: &mut MersenneTwister, width: u8, n: usize) -> [Vec<i32>; 7] {
    let [lowest, highest] = ends(width);
    let steps = (n as i64 - 1).max(1);
    let range = i64::from(highest) - i64::from(lowest);
    let up = (0..n as i64).map(|j| lowest + (range * j / steps) as i32);
    let alternating = |ends: [i32; 2]| ends.into_iter().cycle().take(n).collect();
    [
        vec![lowest; n],
        vec![highest; n],
        alternating([lowest, highest]),
        alternating([highest, lowest]),
        up.clone().collect(),
        up.rev().collect(),
        (0..n).map(|_| random.between(lowest, highest)).collect(),
    ]
}

/// Netlists that compile writes for samples of a width, on each vector once.
fn compiled(random: &mut MersenneTwister, banks: impl Iterator<Item = (Matrix, u8)>) -> Vec<Runs> {
    let runs = |(matrix, width): (Matrix, u8)| {
        let mut runs: Vec<Run> = Vec::new();
        for samples in vectors(random, width, matrix.n()) {
            let run = (samples, matrix.m());
            if !runs.contains(&run) {
                runs.push(run);
            }
        }
        (netlist_at(width, &matrix.record()), runs)
    };
    banks.map(runs).collect()
}

/// At each width, and at each place of the vector, a sample that is one past an end, and after it one that is far past it; 15 and 16 come
/// first.
fn past_the_ends() -> Vec<Runs> {
    let mut all = Vec::new();
    for (matrix, width) in small_banks().iter().flat_map(|m| WIDTHS.map(|w| (m, w))) {
        let (m, n, [lowest, highest]) = (matrix.m(), matrix.n(), ends(width));
        let mut runs: Vec<Run> = Vec::new();
        for index in 0..n {
            for past in [lowest - 1, highest + 1] {
                let mut samples = vec![lowest; n];
                samples[index] = past;
                runs.push((samples.clone(), m));
                samples[index + 1..].fill(i32::MAX);
                runs.push((samples, m));
            }
        }
        let far = vec![i32::MIN; n];
        runs.extend([(far.clone(), m), (far.clone(), m + 1)]);
        runs.push(([&far[..], &[0]].concat(), m));
        all.push((netlist_at(width, &matrix.record()), runs));
    }
    all
}

/// Wrong numbers of samples and outputs.
fn wrong_counts() -> Vec<Runs> {
    let runs = |matrix: Matrix| {
        let (m, n) = (matrix.m(), matrix.n());
        let counts = [
            // 15, also where both are wrong
            (n - 1, m),
            (n + 1, m),
            (0, m),
            (255, m),
            (n + 1, m + 1),
            (0, 0),
            // 16
            (n, m - 1),
            (n, m + 1),
            (n, 0),
            (n, 16),
        ];
        let run = |(samples, outputs)| (vec![-32_768; samples], outputs);
        (netlist(&matrix.record()), counts.map(run).to_vec())
    };
    let ones = filled(8, 8, || 1);
    let some = [three_minus_three(), five_zero_minus_one(), ones];
    some.map(runs).to_vec()
}

/// The netlist of no rows: no samples and no outputs, then 16, then 15, also where both counts are wrong.
fn without_rows() -> Runs {
    let counts = [0, 1, 9, 255];
    let both = counts.iter().flat_map(|&n| counts.map(|m| (vec![1; n], m)));
    (netlist(&no_rows().record()), both.collect())
}

/// Netlists that no compiler writes, with as many samples and outputs as the head says, if it is one.
fn others(random: &mut MersenneTwister) -> Vec<Runs> {
    let runs = |netlist: Vec<u8>| {
        let m = netlist.get(4).map_or(1, |&m| usize::from(m));
        let n = netlist.get(5).map_or(1, |&n| usize::from(n));
        let width = reference::sample_width(&netlist).unwrap_or(16);
        let steep_or_random = vectors(random, width, n).into_iter().skip(4);
        let runs = steep_or_random.map(|samples| (samples, m)).collect();
        (netlist, runs)
    };
    let netlists = handmade().into_iter().map(|pair| pair.1);
    netlists.map(runs).collect()
}

/// Of the damaged netlists the first with each refusal and place, and the first that is accepted.
fn first_damaged() -> Vec<Vec<u8>> {
    let mut met = HashSet::new();
    let mut netlists: Vec<Vec<u8>> = damaged().into_iter().map(|pair| pair.1).collect();
    netlists.retain(|netlist| met.insert(returned(&reference::read(netlist))));
    netlists
}

fn case((netlist, runs): &Runs) -> Case {
    let (mut bytes, mut printed) = (netlist.clone(), String::new());
    for (samples, count) in runs {
        bytes.extend([samples.len() as u8, *count as u8]);
        bytes.extend(samples.iter().flat_map(|sample| sample.to_le_bytes()));
        let mut outputs = vec![OLD; *count];
        let answer = reference::run(netlist, samples, &mut outputs);
        let (number, place) = returned(&answer);
        let _ = write!(printed, "{number} {place}");
        for output in outputs {
            let _ = write!(printed, " {output}");
        }
        printed.push('\n');
    }
    Case::of_call(Call::Run, [netlist.len(), runs.len()], &bytes, printed)
}
