//! Check: whether a netlist computes a matrix. It sees nothing of the elimination.

use crate::matrix::Matrix;
use crate::read::Contents;
use crate::refusal::{require, Refusal};

/// Checks a netlist against a matrix record.
pub fn check(matrix: &[u8], netlist: &[u8]) -> Result<(), Refusal> {
    let matrix = Matrix::of_record(matrix)?;
    let contents = Contents::of_netlist(netlist)?;
    let same_size = matrix.m == contents.forms.len() && matrix.n == contents.board.n;
    require(same_size, 13, 0)?;
    let mut rows = contents.forms.iter().zip(&matrix.rows);
    match rows.position(|(form, row)| form.0 != row.map(i64::from)) {
        None => Ok(()),
        Some(row) => Err(Refusal {
            number: 14,
            place: row,
        }),
    }
}
