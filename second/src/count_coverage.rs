//! How often transfers, tables and questions of each kind came up.

use crate::counts::Question;
use crate::coverage::{never, write_counts};
use crate::event::{Event, Pair, Word};
use crate::recount::{with_records, Freed, RECORDS};
use crate::wire::{is_slave, BROADCAST};
use std::collections::BTreeSet;
use std::fmt;

const NAMES: [&str; 39] = [
    "taken-broadcast",
    "taken-master",
    "taken-slave",
    "failed-broadcast",
    "failed-master",
    "failed-slave",
    "failed-1",
    "failed-2",
    "failed-3",
    "failed-4",
    "failed-5",
    "no-answer-2",
    "no-answer-3",
    "no-answer-4",
    "no-answer-5",
    "again-when-full",
    "not-freed",
    "pairs-0",
    "pairs-1-to-63",
    "pairs-64",
    "pairs-65",
    "pairs-over-65",
    "line-taken",
    "line-failed",
    "line-both",
    "line-over-9",
    "line-over-255",
    "others-0",
    "others-taken",
    "others-failed",
    "others-both",
    "asked-all",
    "asked-record",
    "asked-in-others",
    "asked-never-seen",
    "small-letters",
    "asked-of-bad-form",
    "refused-14",
    "refused-15",
];

/// The first of three by ZZ, for taken and for failed transfers.
const TAKEN: usize = 0;
const FAILED: usize = 3;
/// The first by the number of the failed line; those told taken once more.
const FAILED_NUMBER: usize = 6;
const NO_ANSWER: usize = 11;
const AGAIN_WHEN_FULL: usize = 15;
const NOT_FREED: usize = 16;
/// The first of five, by how many pairs were freed.
const PAIRS: usize = 17;
/// The first of three, by which count is not 0.
const LINE: usize = 22;
const LINE_OVER_9: usize = 25;
const LINE_OVER_255: usize = 26;
/// The first of four: none, taken, failed, both.
const OTHERS: usize = 27;
/// The first of four kinds of questions.
const ASKED: usize = 31;
const SMALL_LETTERS: usize = 35;
const ASKED_OF_BAD_FORM: usize = 36;
const REFUSED_14: usize = 37;

#[derive(Clone)]
pub struct CountCoverage {
    scenarios: u64,
    counts: [u64; NAMES.len()],
}

/// By hand, because it cannot be derived for more than 32 counts.
impl Default for CountCoverage {
    fn default() -> CountCoverage {
        CountCoverage { scenarios: 0, counts: [0; NAMES.len()] }
    }
}

impl CountCoverage {
    pub fn of_one() -> CountCoverage {
        CountCoverage { scenarios: 1, ..CountCoverage::default() }
    }

    fn count(&mut self, place: usize, so: bool) {
        self.counts[place] += u64::from(so);
    }

    pub fn refused_form(&mut self, number: u8, question: Question) {
        self.count(REFUSED_14 + number as usize - 14, true);
        self.count(ASKED_OF_BAD_FORM, question != Question::All);
    }

    /// The question itself no longer shows how it was written.
    pub fn written_as(&mut self, args: &[&str]) {
        let small = |arg: &&str| arg.bytes().any(|letter| letter.is_ascii_lowercase());
        self.count(SMALL_LETTERS, args.iter().any(small));
    }

    pub fn run(&mut self, events: &[Event], freed: &[Freed]) {
        freed.iter().for_each(|transfer| self.transfer(transfer));
        let owned = events.iter().filter(|event| matches!(event.word, Word::Owns));
        self.count(NOT_FREED, owned.count() > freed.len());
        let pairs: BTreeSet<Pair> = freed.iter().map(|transfer| transfer.pair).collect();
        let many = match pairs.len() {
            0 => 0,
            1..RECORDS => 1,
            RECORDS => 2,
            65 => 3,
            _ => 4,
        };
        self.count(PAIRS + many, true);
        let records = with_records(freed);
        let has_record = |transfer: &&Freed| records.contains(&transfer.pair);
        let again = freed.iter().skip_while(has_record).filter(has_record).count();
        self.counts[AGAIN_WHEN_FULL] += again as u64;
    }

    fn transfer(&mut self, transfer: &Freed) {
        let kind = match transfer.pair {
            [_, BROADCAST] => 0,
            [_, target] if is_slave(target) => 2,
            _ => 1,
        };
        let first = if transfer.got_through() { TAKEN } else { FAILED };
        self.count(first + kind, true);
        if let Some(number) = transfer.failed {
            self.count(FAILED_NUMBER + number as usize - 1, true);
            if transfer.told_taken {
                self.count(NO_ANSWER + number as usize - 2, true);
            }
        }
    }

    pub fn question(&mut self, question: Question, freed: &[Freed]) {
        let kind = match question {
            Question::All => 0,
            Question::Of(pair) if with_records(freed).contains(&pair) => 1,
            Question::Of(pair) if freed.iter().any(|transfer| transfer.pair == pair) => 2,
            Question::Of(_) => 3,
        };
        self.count(ASKED + kind, true);
    }

    pub fn line(&mut self, pair: Option<Pair>, [taken, failed]: [u32; 2]) {
        let kind = usize::from(taken > 0) + 2 * usize::from(failed > 0);
        match pair {
            // A record has at least one transfer.
            Some(_) => self.count(LINE + kind - 1, true),
            None => self.count(OTHERS + kind, true),
        }
        self.count(LINE_OVER_9, taken.max(failed) > 9);
        self.count(LINE_OVER_255, taken.max(failed) > 255);
    }

    pub fn add(&mut self, other: &CountCoverage) {
        self.scenarios += other.scenarios;
        for (mine, theirs) in self.counts.iter_mut().zip(other.counts) {
            *mine += theirs;
        }
    }

    pub fn missing(&self) -> Vec<&'static str> {
        never(&NAMES, &self.counts)
    }

    /// A pair in others and one never seen are refused alike.
    fn refused_20(&self) -> u64 {
        self.counts[ASKED + 2] + self.counts[ASKED + 3]
    }
}

impl fmt::Display for CountCoverage {
    fn fmt(&self, f: &mut fmt::Formatter) -> fmt::Result {
        write!(f, "counts scenarios={}", self.scenarios)?;
        write_counts(f, &NAMES, &self.counts)?;
        write!(f, " refused-20={}", self.refused_20())
    }
}
