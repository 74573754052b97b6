//! Matrix Market files: the matrix record of a matrix that stands in NIST's array form, column by column.

use crate::matrix::{is_size, record_length, START};
use crate::refusal::{require, Refusal};

/// The first line of every file, before its line feed.
const FIRST: &[u8] = b"%%MatrixMarket matrix array integer general";

/// Writes the matrix record of a Matrix Market file into the first bytes of `buffer`, and returns how many these are.
pub fn read_matrix_market(text: &[u8], buffer: &mut [u8]) -> Result<usize, Refusal> {
    let mut lines = Lines { text, place: 0 };
    require(lines.next_line() == Some(FIRST), 17, 0)?;
    lines.pass_comments();

    let place = lines.place;
    let size = lines.next_line().and_then(size);
    let (m, n) = size.ok_or(Refusal { number: 17, place })?;
    require(is_size(m) && is_size(n), 4, place)?;

    let mut entries = Vec::new();
    while entries.len() < m * n && !lines.at_end() {
        let place = lines.place;
        let entry = lines.next_line().and_then(entry);
        entries.push(entry.ok_or(Refusal { number: 19, place })?);
    }
    require(entries.len() == m * n && lines.at_end(), 18, lines.place)?;

    let length = record_length(m, n);
    require(buffer.len() >= length, 6, 0)?;
    let (start, coefficients) = buffer[..length].split_at_mut(START);
    let [low, high] = (length as u16).to_le_bytes();
    start.copy_from_slice(&[low, high, 1, 0, m as u8, n as u8]);
    for (k, coefficient) in coefficients.chunks_exact_mut(2).enumerate() {
        let (row, column) = (k / n, k % n);
        coefficient.copy_from_slice(&entries[column * m + row].to_le_bytes());
    }
    Ok(length)
}

/// The lines of a file, one after another.
struct Lines<'a> {
    text: &'a [u8],
    /// Where the next line starts; the file's end where none is left.
    place: usize,
}

impl<'a> Lines<'a> {
    /// Passes over a line and returns its bytes before the line feed. None where it is missing or lacks its line feed, for then
    /// it has no form that is wanted; nothing is passed over.
    fn next_line(&mut self) -> Option<&'a [u8]> {
        let rest = &self.text[self.place..];
        let length = rest.iter().position(|&byte| byte == b'\n')?;
        self.place += length + 1;
        Some(&rest[..length])
    }

    /// Passes over all lines that start with %, up to one that does not or that lacks its line feed.
    fn pass_comments(&mut self) {
        while self.text[self.place..].starts_with(b"%") && self.next_line().is_some() {}
    }

    fn at_end(&self) -> bool {
        self.place == self.text.len()
    }
}

/// m and n of a size line, whatever they are: two integers with one blank between.
fn size(line: &[u8]) -> Option<(usize, usize)> {
    let blank = line.iter().position(|&byte| byte == b' ')?;
    Some((integer(&line[..blank])?, integer(&line[blank + 1..])?))
}

/// An integer from −32,768 to 32,767, with an optional minus.
fn entry(line: &[u8]) -> Option<i16> {
    let value = match line.strip_prefix(b"-") {
        Some(digits) => -i64::try_from(integer(digits)?).ok()?,
        None => i64::try_from(integer(line)?).ok()?,
    };
    i16::try_from(value).ok()
}

/// One or more decimal digits, leading zeros allowed, as many as there may be: a number too high for `usize` counts as the
/// highest, which is no size and no entry either.
fn integer(digits: &[u8]) -> Option<usize> {
    let decimal = !digits.is_empty() && digits.iter().all(u8::is_ascii_digit);
    let append = |number: usize, digit: &u8| {
        let tenfold = number.saturating_mul(10);
        tenfold.saturating_add(usize::from(digit - b'0'))
    };
    decimal.then(|| digits.iter().fold(0, append))
}
