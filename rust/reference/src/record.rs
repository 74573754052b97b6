//! Records: length and kind, two bytes each, then the payload.

use crate::refusal::{require, Refusal};

/// The bytes of length and kind.
pub(crate) const PREFIX: usize = 4;

/// A record that `step` passed over.
#[derive(Clone, Copy, Debug, PartialEq, Eq)]
pub struct Record<'a> {
    pub kind: u16,
    pub payload: &'a [u8],
    /// The place of the record after it.
    pub next: usize,
}

/// Steps over the record that starts at `place`.
pub fn step(bytes: &[u8], place: usize) -> Result<Record<'_>, Refusal> {
    let rest = bytes.get(place..).unwrap_or(&[]);
    require(rest.len() >= PREFIX, 7, place)?;
    let length = usize::from(two_bytes(rest, 0));
    require(length <= rest.len(), 7, place)?;
    require(length >= PREFIX, 8, place)?;
    Ok(Record {
        kind: two_bytes(rest, 2),
        payload: &rest[PREFIX..length],
        next: place + length,
    })
}

/// The little-endian number in the two bytes from `at` on.
pub(crate) fn two_bytes(bytes: &[u8], at: usize) -> u16 {
    u16::from_le_bytes([bytes[at], bytes[at + 1]])
}
