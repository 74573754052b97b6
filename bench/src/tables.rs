//! The tables of docs/BENCHMARKS.md.

use std::fmt::Write;

use bench::{Call, CALLS, VECTORS};

use crate::depths::{mean, Totals, METHODS};
use crate::lists::List;
use crate::programs::{Figures, Memory};
use crate::text::{seconds, thousands};
use crate::times::{Banks, Times};
use crate::Growth;

fn row(text: &mut String, cells: &[String]) {
    let _ = writeln!(text, "| {} |", cells.join(" | "));
}

fn header(text: &mut String, cells: &[&str]) {
    row(
        text,
        &cells
            .iter()
            .map(|cell| cell.to_string())
            .collect::<Vec<_>>(),
    );
    let _ = writeln!(text, "|{}", "---|".repeat(cells.len()));
}

/// What the tables of all calls say of clock.
fn list_lent() -> String {
    format!("clock on a list of {} vectors", thousands(VECTORS as f64))
}

pub fn ratios(text: &mut String, calls: &[Times], instructions: &Figures<f64>) {
    let _ = writeln!(
        text,
        "## Ratios, verified to independent\n\nRandom 8 by 8 banks of 16-bit coefficients; {}.\n",
        list_lent(),
    );
    header(text, &["Call", "Time", "Instructions"]);
    for (call, times) in CALLS.into_iter().zip(calls) {
        let counted = instructions.verified(call) / instructions.independent(call);
        let cells = [format!("{:.2}", times.ratio), format!("{counted:.2}")];
        row(text, &[&[call.name().to_string()], &cells[..]].concat());
    }
    text.push('\n');
}

pub fn growth(text: &mut String, what: &str, rows: &[&Growth], label: impl Fn(&Growth) -> String) {
    let _ = writeln!(text, "## Growth with {what}\n");
    let calls = [
        "compile: instructions, ratio",
        "time, ratio",
        "verified",
        "independent",
        "read: time, ratio",
        "verified",
        "independent",
    ];
    header(text, &[&[what, "Operations"], &calls[..]].concat());
    for growth in rows {
        let counted = growth.instructions;
        let mut cells = vec![label(growth), growth.operations.to_string()];
        cells.push(format!("{:.1}", counted[0] / counted[1]));
        for times in [&growth.compile, &growth.read] {
            cells.push(format!("{:.1}", times.ratio));
            cells.push(seconds(times.verified));
            cells.push(seconds(times.independent));
        }
        row(text, &cells);
    }
    text.push('\n');
}

pub fn touched(text: &mut String, rows: &[&Growth]) {
    text.push_str("## Growth with the occurrences touched\n\n");
    text.push_str("The verified compile; means over the banks that callgrind counts.\n\n");
    let columns = [
        "m by n",
        "Occurrences touched",
        "Instructions",
        "Instructions for each occurrence",
    ];
    header(text, &columns);
    for growth in rows {
        let instructions = growth.instructions[0];
        let cells = [
            format!("{0} by {0}", growth.size),
            thousands(growth.touched),
            thousands(instructions),
            thousands(instructions / growth.touched),
        ];
        row(text, &cells);
    }
    text.push('\n');
}

/// What a vector costs in lists of several lengths, on these banks.
pub fn lists(text: &mut String, banks: &Banks, lists: &[List]) {
    let _ = writeln!(
        text,
        "## One vector every clock\n\nRandom 8 by 8 banks of 16-bit coefficients. Medians over the banks, each by itself: {} operations, \
         {} delays, {} registers.\n",
        banks.operations(),
        banks.delays(),
        banks.registers(),
    );
    let columns = [
        "Vectors",
        "clock: time for each vector, ratio",
        "verified",
        "independent",
        "run: time, verified",
        "run to clock, verified",
    ];
    header(text, &columns);
    let run = seconds(banks.times(Call::Run).verified);
    for list in lists {
        let cells = [
            thousands(list.vectors as f64),
            format!("{:.2}", list.clock.ratio),
            seconds(list.clock.verified),
            seconds(list.clock.independent),
            run.clone(),
            format!("{:.1}", list.run_to_clock),
        ];
        row(text, &cells);
    }
    text.push('\n');
}

pub fn burn_in(text: &mut String, runs: &[(&str, [f64; 2])]) {
    text.push_str("## Burn-in\n\n1,000 banks, each generated, compiled and checked.\n\n");
    header(text, &["Seeds", "Ratio", "Verified", "Independent"]);
    for &(seeds, [verified, independent]) in runs {
        let ratio = format!("{:.1}", verified / independent);
        let times = [verified, independent].map(seconds);
        row(text, &[&[seeds.to_string(), ratio], &times[..]].concat());
    }
    text.push('\n');
}

/// A row for each kind of random banks: what they are, and a number in each column.
fn random_banks(
    text: &mut String,
    columns: [&str; 3],
    rows: &[(String, Totals)],
    numbers: impl Fn(&Totals) -> [String; 3],
) {
    header(text, &[&["m by n"], &columns[..]].concat());
    for (label, totals) in rows {
        row(text, &[&[label.clone()], &numbers(totals)[..]].concat());
    }
    text.push('\n');
}

pub fn depths(text: &mut String, rows: &[(String, Totals)]) {
    text.push_str("## Operations and depth\n\nMeans over 100 random banks.\n\n");
    let columns = [
        "Operations",
        "Depth with chains, before request A4",
        "Depth",
    ];
    random_banks(text, columns, rows, |totals| {
        let numbers = [totals.operations, totals.chain_depth, totals.depth];
        numbers.map(|total| format!("{:.1}", mean(total)))
    });
}

pub fn published_depths(text: &mut String, rows: &[(usize, Totals, [&str; 7])]) {
    text.push_str(
        "Beside Table 2 of source document 000 (Aksoy and others, Multiplierless Design of Linear DSP Transforms), a cell has the mean \
         number of operations and the mean depth, there `adder` and `step`. Its steps are what depth is here; all else differs \
         in kind. Its methods are other algorithms, and the last three get a limit of the steps: the least is the binary \
         logarithm, rounded up, of the most terms in a row of the matrix. Its banks are 100 random ones of its own for each m, with \
         coefficients from 129 to 255; here 100 others are drawn from that range, evenly.\n\n",
    );
    let ours = ["m by m", "Zaatarloft with chains", "Zaatarloft"];
    header(text, &[&ours, &METHODS[..]].concat());
    for (size, totals, figures) in rows {
        let ours = |depth| format!("{:.1}, {:.1}", mean(totals.operations), mean(depth));
        let cells = [
            format!("{size} by {size}"),
            ours(totals.chain_depth),
            ours(totals.depth),
        ];
        let figures = figures.map(str::to_string);
        row(text, &[&cells[..], &figures[..]].concat());
    }
    text.push('\n');
}

pub fn negated_outputs(text: &mut String, rows: &[(String, Totals)]) {
    text.push_str("## Negated outputs\n\nOutputs of the same banks, 100 in each row.\n\n");
    let before = "Negated with operands in order, before request A5";
    random_banks(text, ["Outputs", before, "Negated"], rows, |totals| {
        let numbers = [totals.outputs, totals.negated_in_order, totals.negated];
        numbers.map(|number| thousands(number as f64))
    });
}

pub fn memory(text: &mut String, memory: &Figures<Memory>) {
    let _ = writeln!(
        text,
        "## Memory\n\nThe most over 20 of the 8 by 8 banks, in bytes; {}.\n",
        list_lent(),
    );
    let columns = [
        "Stack, verified",
        "Stack, independent",
        "Heap, verified",
        "Heap, independent",
    ];
    header(text, &[&["Call"], &columns[..]].concat());
    for call in CALLS {
        let (verified, independent) = (memory.verified(call), memory.independent(call));
        let numbers = [
            verified.stack,
            independent.stack,
            verified.heap,
            independent.heap,
        ];
        let cells = numbers.map(thousands);
        row(text, &[&[call.name().to_string()], &cells[..]].concat());
    }
    text.push('\n');
}

pub fn absolute(text: &mut String, calls: &[Times], instructions: &Figures<f64>, machine: &str) {
    let _ = writeln!(text, "## Absolute figures\n\n{machine}\n");
    let _ = writeln!(
        text,
        "Random 8 by 8 banks of 16-bit coefficients, one call; {}.\n",
        list_lent(),
    );
    let columns = [
        "Time, verified",
        "Time, independent",
        "Instructions, verified",
        "Instructions, independent",
    ];
    header(text, &[&["Call"], &columns[..]].concat());
    for (call, times) in CALLS.into_iter().zip(calls) {
        let cells = [
            call.name().to_string(),
            seconds(times.verified),
            seconds(times.independent),
            thousands(instructions.verified(call)),
            thousands(instructions.independent(call)),
        ];
        row(text, &cells);
    }
}
