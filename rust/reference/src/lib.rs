//! The bank compiler of document 01 in plain Rust, written from its text.
//!
//! It is the other side of every comparison with the verified library: tests hold the two answers against each other, and
//! the benchmark takes it as its base. The calls have the shape of the verified library's wrappers, and a buffer that
//! a call is lent changes only where the call is accepted. `compile_by`, which the library does not have, says what netlists
//! were before request A2, A4 or A5, and `literal` goes through elimination state by state.

mod board;
mod check;
mod clock;
mod compile;
mod digits;
mod elimination;
mod generator;
pub mod literal;
mod market;
mod matrix;
mod read;
mod record;
mod refusal;
mod run;
mod samples;
mod sums;
mod verilog;
mod width;

pub use check::check;
pub use clock::{clock, registers};
pub use compile::{compile, compile_by, Compiled, Rules};
pub use elimination::{Divisor, Order};
pub use generator::generate;
pub use market::read_matrix_market;
pub use read::{read, sample_width, Netlist};
pub use record::{step, Record};
pub use refusal::{returned, Refusal};
pub use run::run;
pub use sums::{Operands, Sums};
pub use verilog::write_verilog;
