//! Cases from seeds, for the tests and the benchmark. It rests on document 01's layout alone and on no implementation.

mod damage;
mod lists;
mod market;
mod matrices;
mod netlists;
mod random;
mod runs;

pub use damage::{
    damage, damage_head, damage_matrix, damage_netlist, each_change_of_a_byte, other_heads,
};
pub use lists::any_list;
pub use market::{damaged_market_file, market_file, plain_market_file};
pub use matrices::{any_bank, any_matrix, bank, filled, Matrix};
pub use netlists::{any_netlist, deep_netlist, plain_netlist, waiting_netlist};
pub use random::Random;
pub use runs::{each, Met};
