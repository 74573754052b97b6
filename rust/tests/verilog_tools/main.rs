//! Modules of the library in Icarus Verilog and Yosys. Icarus must read each without a word, and simulated outputs must be row times
//! vector; Yosys must find the adders that the netlist names and no others, and prove small modules for all samples.
//!
//! Icarus warns neither where an assignment cuts off bits nor where a sign is lost, so that it reads a module says little: only what a
//! simulation gives counts, at the ends of the samples above all. `damaged` shows which wrong texts are noticed.
//!
//! Random banks follow from seeds. A failure names its seed, and SEED=NUMBER runs that one alone, as does SEED=FIRST..END a range.

mod banks;
mod damaged;
mod declared;
mod simulate;
mod synthesise;
mod tools;
