//! How often each event, each refusal, each NN above 16, each broken pair and
//! the longest parts came up, and how long the wire was held.

use crate::event::{Event, Failure, Place, Role, Tenure, Unusable, Word};
use crate::intake::BrokenPair;
use crate::wire::{ESC, WIRE_MAX};
use std::fmt;

const NAMES: [&str; 53] = [
    "owns",
    "taken-owner",
    "taken-slave",
    "failed-owner-1",
    "failed-owner-2",
    "failed-owner-3",
    "failed-owner-4",
    "failed-owner-5-pair",
    "failed-owner-5-over-long",
    "failed-slave-1",
    "failed-slave-2",
    "failed-slave-3",
    "failed-slave-4",
    "free",
    "given-one",
    "given-broadcast",
    "answer",
    "refused-1",
    "refused-2",
    "refused-3",
    "refused-4",
    "refused-5",
    "refused-7",
    "refused-8",
    "refused-9",
    "refused-10",
    "refused-11",
    "refused-12",
    "refused-14",
    "refused-15",
    "over-long-part",
    "over-long-part-repeated",
    "over-long-broadcast",
    "over-long-answer",
    "over-long-answer-repeated",
    "pair-part",
    "pair-part-repeated",
    "pair-broadcast",
    "pair-answer",
    "pair-answer-repeated",
    "pair-in-crc",
    "pair-behind-pair",
    "pair-a9-a9",
    "pair-after-quiet",
    "pair-greatest",
    "left-taken",
    "left-failed",
    "left-given-one",
    "left-given-broadcast",
    "free-1",
    "free-over-255",
    "part-39",
    "answer-35",
];

/// There is no refusal 6 or 13.
const REFUSALS: [u8; 13] = [1, 2, 3, 4, 5, 7, 8, 9, 10, 11, 12, 14, 15];

/// The first of each group; the others stand in the order of their numbers or
/// of their enum.
const FAILED_OWNER: usize = 3;
const FAILED_SLAVE: usize = 9;
const REFUSED: usize = 17;
const OVER_LONG: usize = 30;
const PAIR: usize = 35;

/// The first of what a broken pair that an owner is told may be besides.
const PAIR_TOLD: usize = 40;

/// NN and sixteen data bytes in two symbols each come before it.
const GREATEST_POSITION: u8 = 33;

/// What somebody in step is told after the owner has left.
const LEFT: usize = 45;

/// Owners that fail at once, and those whose count needs a second byte.
const FREE_1: usize = 49;
const FREE_OVER_255: usize = 50;

/// Handed out with as many symbols as there can be.
const PART_39: usize = 51;
const ANSWER_35: usize = 52;

/// An answer begins at NN, four symbols later than a part.
const LONGEST_ANSWER: usize = WIRE_MAX - 4;

#[derive(Clone)]
pub struct Coverage {
    scenarios: u64,
    counts: [u64; NAMES.len()],
    /// The greatest count of elapsed slots.
    longest: u32,
    /// The positions of broken pairs that owners were told, as bits.
    positions: u64,
}

/// By hand, because it cannot be derived for more than 32 counts.
impl Default for Coverage {
    fn default() -> Coverage {
        Coverage { scenarios: 0, counts: [0; NAMES.len()], longest: 0, positions: 0 }
    }
}

fn place_of(event: &Event) -> usize {
    match event.word {
        Word::Owns => 0,
        Word::Taken(Role::Owner) => 1,
        Word::Taken(Role::Slave) => 2,
        Word::Failed(Role::Owner, Failure::OverLong) => FAILED_OWNER + 5,
        Word::Failed(Role::Owner, failure) => FAILED_OWNER + failure.number() as usize - 1,
        Word::Failed(Role::Slave, failure) => FAILED_SLAVE + failure.number() as usize - 1,
        Word::Free(_) => 13,
        Word::Given { broadcast: false, .. } => 14,
        Word::Given { broadcast: true, .. } => 15,
        Word::Answer { .. } => 16,
    }
}

/// Some events count a second time, for where they stand to an owner.
fn place_by_tenure(event: &Event) -> Option<usize> {
    match (event.tenure, &event.word) {
        (Tenure::Left, Word::Taken(_)) => Some(LEFT),
        (Tenure::Left, Word::Failed(..)) => Some(LEFT + 1),
        (Tenure::Left, Word::Given { broadcast, .. }) => Some(LEFT + 2 + usize::from(*broadcast)),
        (Tenure::Held(1), Word::Free(_)) => Some(FREE_1),
        (Tenure::Held(256..), Word::Free(_)) => Some(FREE_OVER_255),
        _ => None,
    }
}

/// The longest parts and answers count a second time.
fn place_by_length(event: &Event) -> Option<usize> {
    match &event.word {
        Word::Given { part, .. } if part.symbols() == WIRE_MAX => Some(PART_39),
        Word::Answer { part, .. } if part.symbols() == LONGEST_ANSWER => Some(ANSWER_35),
        _ => None,
    }
}

impl Coverage {
    pub fn scenario(&mut self) {
        self.scenarios += 1;
    }

    pub fn event(&mut self, event: &Event) {
        self.counts[place_of(event)] += 1;
        for place in [place_by_tenure(event), place_by_length(event)].into_iter().flatten() {
            self.counts[place] += 1;
        }
        self.longest = self.longest.max(event.elapsed());
        if let Word::Failed(_, Failure::BrokenPair(pair)) = event.word {
            self.positions |= 1 << pair.position;
        }
    }

    pub fn refusal(&mut self, number: u8) {
        let place = REFUSALS.iter().position(|&refusal| refusal == number);
        self.counts[REFUSED + place.expect("a number that 01 has")] += 1;
    }

    pub fn unusable(&mut self, unusable: &Unusable) {
        let place = unusable.place as usize;
        let Failure::BrokenPair(pair) = unusable.failure else {
            self.counts[OVER_LONG + place] += 1;
            return;
        };
        self.counts[PAIR + place] += 1;
        if matches!(unusable.place, Place::Answer | Place::AnswerRepeated) {
            self.pair_told(unusable, pair);
        }
    }

    /// An owner's broken pair counts once more for each thing that it is.
    fn pair_told(&mut self, unusable: &Unusable, pair: BrokenPair) {
        let told = [
            unusable.at_check,
            unusable.behind_pair,
            pair.symbol == ESC,
            unusable.after_quiet,
            pair.position == GREATEST_POSITION,
        ];
        for (place, so) in told.into_iter().enumerate() {
            self.counts[PAIR_TOLD + place] += u64::from(so);
        }
    }

    pub fn add(&mut self, other: &Coverage) {
        self.scenarios += other.scenarios;
        for (mine, theirs) in self.counts.iter_mut().zip(other.counts) {
            *mine += theirs;
        }
        self.longest = self.longest.max(other.longest);
        self.positions |= other.positions;
    }

    /// What a wild enough maker should have reached and has not.
    pub fn missing(&self) -> Vec<&'static str> {
        never(&NAMES, &self.counts)
    }

    /// The same for the positions that an owner can be told.
    pub fn missing_positions(&self) -> Vec<String> {
        let missing =
            (1..=GREATEST_POSITION).filter(|position| self.positions >> position & 1 == 0);
        missing.map(|position| format!("pair-position-{position}")).collect()
    }
}

/// The names whose count is 0.
pub fn never(names: &[&'static str], counts: &[u64]) -> Vec<&'static str> {
    let named = names.iter().zip(counts);
    named.filter(|(_, count)| **count == 0).map(|(name, _)| *name).collect()
}

pub fn write_counts(f: &mut fmt::Formatter, names: &[&str], counts: &[u64]) -> fmt::Result {
    names.iter().zip(counts).try_for_each(|(name, count)| write!(f, " {name}={count}"))
}

impl fmt::Display for Coverage {
    fn fmt(&self, f: &mut fmt::Formatter) -> fmt::Result {
        write!(f, "coverage scenarios={}", self.scenarios)?;
        write_counts(f, &NAMES, &self.counts)?;
        write!(f, " longest={} pair-positions={}", self.longest, self.positions.count_ones())
    }
}
