//! The verified library beside the independent implementation `reference`, in bulk: for every input both must give the same
//! answer and leave the same bytes in every lent buffer.
//!
//! Inputs follow from seeds. A failure names its seed, and SEED=NUMBER runs that one alone, as does SEED=FIRST..END a range;
//! only of `many_seeds`, whose seeds are the generator's, and of tests that need none, as those of `no_rows`, all are run.

mod both;
mod clock;
mod compile;
mod generate;
mod market;
mod netlists;
mod no_rows;
mod raw;
mod records;
mod verilog;
