//! Matrix record: kind 1, m, n, then the coefficients row by row. No bytes stand for a matrix of no rows and no columns.

use crate::record::two_bytes;
use crate::refusal::{require, Refusal};

/// The most rows and the most columns.
pub(crate) const MOST: usize = 8;

/// The bytes before the first coefficient.
pub(crate) const START: usize = 6;

pub(crate) struct Matrix {
    pub m: usize,
    pub n: usize,
    /// One array for each row; columns from n on are 0, and so are rows from m on.
    pub rows: [[i16; MOST]; MOST],
}

impl Matrix {
    /// The matrix of a record, or of no bytes. Refusals 1 to 5.
    pub fn of_record(record: &[u8]) -> Result<Self, Refusal> {
        let (m, n) = match record {
            [] => (0, 0),
            _ => size(record)?,
        };
        let mut rows = [[0; MOST]; MOST];
        for (i, row) in rows[..m].iter_mut().enumerate() {
            for (j, coefficient) in row[..n].iter_mut().enumerate() {
                *coefficient = two_bytes(record, START + 2 * (i * n + j)) as i16;
            }
        }
        Ok(Matrix { m, n, rows })
    }
}

/// m and n of a record that has as many bytes as these want.
fn size(record: &[u8]) -> Result<(usize, usize), Refusal> {
    require(record.len() >= START, 1, 0)?;
    let length = usize::from(two_bytes(record, 0));
    require(length == record.len(), 2, 0)?;
    require(two_bytes(record, 2) == 1, 3, 0)?;
    let (m, n) = (usize::from(record[4]), usize::from(record[5]));
    require(is_size(m) && is_size(n), 4, 0)?;
    require(length == record_length(m, n), 5, 0)?;
    Ok((m, n))
}

/// Whether `count` is a number of rows or columns that a record may have.
pub(crate) fn is_size(count: usize) -> bool {
    (1..=MOST).contains(&count)
}

/// The bytes of a record of so many rows and columns.
pub(crate) fn record_length(m: usize, n: usize) -> usize {
    START + 2 * m * n
}
