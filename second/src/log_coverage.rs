//! In how many scenarios a log came to each of its narrow places.

use crate::coverage::{never, write_counts};
use crate::log::Log;
use std::fmt;

const NAMES: [&str; 15] = [
    "none-gone",
    "gone",
    "several-for-one",
    "four-for-one",
    "filled",
    "end-after-tag",
    "end-in-length",
    "end-before-value",
    "end-in-value",
    "end-after-record",
    "end-before-numbers",
    "end-in-numbers",
    "refused-14",
    "refused-15",
    "refused-16",
];

const NONE_GONE: usize = 0;
const GONE: usize = 1;
const SEVERAL_FOR_ONE: usize = 2;
const FOUR_FOR_ONE: usize = 3;
const FILLED: usize = 4;
/// The first of four: after the tag, in the length, before and in the value.
const END_INSIDE: usize = 5;
const END_AFTER_RECORD: usize = 9;
/// The first of two: before and between the numbers of a broken pair.
const END_AT_NUMBERS: usize = 10;
const REFUSED_14: usize = 12;

/// Tag and length of a failed record that ends with a broken pair's numbers.
const WITH_NUMBERS: [u8; 3] = [3, 0, 8];

/// What came up in one scenario.
#[derive(Default)]
pub struct Reached {
    flags: [bool; NAMES.len()],
    /// Of all records so far.
    bytes: usize,
}

impl Reached {
    pub fn refused(&mut self, number: u8) {
        self.flags[REFUSED_14 + number as usize - 14] = true;
    }

    /// Notes the record and looks at what went for it.
    pub fn note(&mut self, log: &mut Log, record: Vec<u8>) {
        self.end_of_buffer(log.length(), &record);
        self.bytes += record.len();
        let before = log.gone();
        log.note(record);
        let gone = log.gone() - before;
        self.flags[GONE] |= gone >= 1;
        self.flags[SEVERAL_FOR_ONE] |= gone >= 2;
        self.flags[FOUR_FOR_ONE] |= gone >= 4;
        self.flags[FILLED] |= log.bytes_held() == log.length();
    }

    /// Where the end of a buffer falls in which records lie one behind the
    /// other and go on at its start.
    fn end_of_buffer(&mut self, length: usize, record: &[u8]) {
        let to_end = length - self.bytes % length;
        let size = record.len();
        if record.starts_with(&WITH_NUMBERS) && (size - 2..size).contains(&to_end) {
            self.flags[END_AT_NUMBERS + to_end - (size - 2)] = true;
        }
        if to_end < size {
            self.flags[END_INSIDE + (to_end - 1).min(3)] = true;
        } else if to_end == size {
            self.flags[END_AFTER_RECORD] = true;
        }
    }

    pub fn in_all(mut self) -> LogCoverage {
        let ran = !self.flags[REFUSED_14..].contains(&true);
        self.flags[NONE_GONE] = ran && !self.flags[GONE];
        LogCoverage { scenarios: 1, counts: self.flags.map(u64::from) }
    }
}

#[derive(Clone, Default)]
pub struct LogCoverage {
    scenarios: u64,
    counts: [u64; NAMES.len()],
}

impl LogCoverage {
    pub fn add(&mut self, other: &LogCoverage) {
        self.scenarios += other.scenarios;
        for (mine, theirs) in self.counts.iter_mut().zip(other.counts) {
            *mine += theirs;
        }
    }

    pub fn missing(&self) -> Vec<&'static str> {
        never(&NAMES, &self.counts)
    }
}

impl fmt::Display for LogCoverage {
    fn fmt(&self, f: &mut fmt::Formatter) -> fmt::Result {
        write!(f, "logs scenarios={}", self.scenarios)?;
        write_counts(f, &NAMES, &self.counts)
    }
}
