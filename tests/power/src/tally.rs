//! What a run has tried, counted by name.

use std::collections::BTreeMap;
use std::fmt;

#[derive(Clone, Debug, Default, PartialEq, Eq)]
pub struct Tally {
    counts: BTreeMap<&'static str, u64>,
}

/// What is counted.
pub const SCENARIOS: &str = "scenarios";
pub const IMAGES: &str = "crash images";
pub const TORN: &str = "crash images with a torn sector";
pub const LANDED: &str = "crash images with the new header";
pub const COMMITS: &str = "commits";
pub const SIGNED_COMMITS: &str = "signed commits";
pub const REVERTS: &str = "reverts";
pub const SIGNED_REVERTS: &str = "signed reverts";
pub const ABANDONED: &str = "abandoned sessions";
pub const WRITES: &str = "accepted writes";
pub const REFUSED: &str = "refused writes";
pub const DIFFS: &str = "headers of a DIFF";
pub const TWO_PARTITIONS: &str = "headers of two partitions";
pub const IN_PLACE: &str = "headers after writes in place";
pub const BLANKS: &str = "headers of a blank image";
pub const RESUMED: &str = "headers after a power failure";
pub const FAILURES: &str = "failed stores and syncs";
pub const BEFORE: &str = "reported as before the header";
pub const IN_PLACE_FAILED: &str = "reported as in place, before the header";
pub const AT_HEADER: &str = "reported as at the header";
pub const FAILED_TWICE: &str = "values that failed twice";
pub const SAVED_WITH_VALUE: &str = "sessions saved by a value that had failed";
pub const SAVED_LATER: &str = "sessions saved on what a failure left, opened anew";

/// What a run of power failures must have met.
pub const CRASHES: [&str; 16] = [
    SCENARIOS,
    IMAGES,
    TORN,
    LANDED,
    COMMITS,
    SIGNED_COMMITS,
    REVERTS,
    SIGNED_REVERTS,
    ABANDONED,
    WRITES,
    REFUSED,
    DIFFS,
    TWO_PARTITIONS,
    IN_PLACE,
    BLANKS,
    RESUMED,
];

/// What a run of failures must have met.
pub const ERRORS: [&str; 7] =
    [FAILURES, BEFORE, IN_PLACE_FAILED, AT_HEADER, FAILED_TWICE, SAVED_WITH_VALUE, SAVED_LATER];

impl Tally {
    pub fn note(&mut self, name: &'static str) {
        *self.counts.entry(name).or_default() += 1;
    }

    pub fn note_if(&mut self, holds: bool, name: &'static str) {
        if holds {
            self.note(name);
        }
    }

    pub fn count(&self, name: &str) -> u64 {
        self.counts.get(name).copied().unwrap_or(0)
    }

    pub fn add(&mut self, other: &Tally) {
        for (name, count) in &other.counts {
            *self.counts.entry(name).or_default() += count;
        }
    }

    /// The first of these that was never met.
    pub fn missing<'a>(&self, names: &[&'a str]) -> Option<&'a str> {
        names.iter().copied().find(|name| self.count(name) == 0)
    }
}

/// A line for each count.
impl fmt::Display for Tally {
    fn fmt(&self, out: &mut fmt::Formatter) -> fmt::Result {
        for (name, count) in &self.counts {
            writeln!(out, "  {count:>9} {name}")?;
        }
        Ok(())
    }
}
