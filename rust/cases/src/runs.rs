//! Going through seeds, and counting what was met.

use std::ops::Range;
use std::thread;

use crate::random::Random;

/// Calls `test` with a fresh source for each of `count` seeds from `first` on. A failure names its seed. The environment
/// variable SEED chooses others: one, or a range as 5000..6000.
pub fn each(first: u64, count: u64, mut test: impl FnMut(&mut Random)) {
    for seed in chosen().unwrap_or(first..first + count) {
        let _named = Named(seed);
        test(&mut Random::new(seed));
    }
}

/// The seeds that SEED chooses, where it is set.
fn chosen() -> Option<Range<u64>> {
    let text = std::env::var_os("SEED")?;
    let seeds = text.to_str().and_then(seeds);
    assert!(seeds.is_some(), "SEED={text:?} chooses no seed");
    seeds
}

/// The seeds that a text chooses; none where it is no number, no range, or an empty range.
fn seeds(text: &str) -> Option<Range<u64>> {
    let (first, end) = match text.split_once("..") {
        Some((first, end)) => (first.parse().ok()?, end.parse().ok()?),
        None => {
            let only: u64 = text.parse().ok()?;
            (only, only.checked_add(1)?)
        }
    };
    (first < end).then_some(first..end)
}

/// Names the seed where its case fails.
struct Named(u64);

impl Drop for Named {
    fn drop(&mut self) {
        if thread::panicking() {
            eprintln!("failed on seed {0}; SEED={0} runs it alone", self.0);
        }
    }
}

/// How often each answer was met: 0 for accepted, 1 to 21 for the refusals.
#[derive(Debug, Default)]
pub struct Met([u64; 22]);

impl Met {
    pub fn count(&mut self, number: u8) {
        self.0[usize::from(number)] += 1;
    }

    /// Each of `numbers` was met at least so often, and no other was met; where SEED chooses the cases, something was met.
    pub fn assert_exactly(&self, call: &str, numbers: &[u8], least: u64) {
        println!("{call}: {:?}", self.0);
        assert_ne!(self.0, [0; 22], "{call}: no case was met");
        if chosen().is_some() {
            return;
        }
        for (number, &count) in (0..).zip(&self.0) {
            if numbers.contains(&number) {
                assert!(count >= least, "{call}: {number} was met {count} times");
            } else {
                assert_eq!(count, 0, "{call}: {number} was met");
            }
        }
    }
}

#[cfg(test)]
mod tests {
    use super::*;

    #[test]
    fn one_seed_or_a_range() {
        assert_eq!(seeds("5"), Some(5..6));
        assert_eq!(seeds("5..7"), Some(5..7));
    }

    #[test]
    fn no_seed() {
        for text in [
            "5..5", "7..5", "", "..", "5..", "..5", "5..=7", "five", "-1",
        ] {
            assert_eq!(seeds(text), None, "{text}");
        }
        assert_eq!(seeds(&u64::MAX.to_string()), None);
    }
}
