//! What came of each transfer, found out afterwards from the list of all events
//! of a run (02, E9).

use crate::event::{Event, Pair, Word};
use crate::wire::is_slave;

/// A transfer whose owner has left the wire.
#[derive(Clone, Copy, Debug, PartialEq, Eq)]
pub struct Freed {
    pub pair: Pair,
    pub told_taken: bool,
    pub answered: bool,
    /// The number of the owner's failed line.
    pub failed: Option<u8>,
}

impl Freed {
    /// Told taken and, ZZ being a slave address, with an answer handed out.
    pub fn got_through(&self) -> bool {
        let [_, target] = self.pair;
        self.told_taken && (self.answered || !is_slave(target))
    }
}

/// One for each free line, in their order.
pub fn freed(events: &[Event]) -> Vec<Freed> {
    let ends = events.iter().enumerate().filter_map(|(place, event)| match event.word {
        Word::Free(pair) => Some(look_back(&events[..place], event.station, pair)),
        _ => None,
    });
    ends.collect()
}

/// What the owner was told since its owns line; before that it may have been a
/// slave, or the owner of another transfer.
fn look_back(before: &[Event], owner: u8, pair: Pair) -> Freed {
    let mut transfer = Freed { pair, told_taken: false, answered: false, failed: None };
    for event in before.iter().rev().filter(|event| event.station == owner) {
        match event.word {
            Word::Owns => break,
            Word::Taken(_) => transfer.told_taken = true,
            Word::Answer { .. } => transfer.answered = true,
            Word::Failed(_, failure) => transfer.failed = Some(failure.number()),
            Word::Given { .. } | Word::Free(_) => {}
        }
    }
    transfer
}

/// Pairs with records of their own: so many, by their first free lines.
pub const RECORDS: usize = 64;

pub fn with_records(freed: &[Freed]) -> Vec<Pair> {
    let mut pairs = Vec::new();
    for transfer in freed {
        if pairs.len() < RECORDS && !pairs.contains(&transfer.pair) {
            pairs.push(transfer.pair);
        }
    }
    pairs
}

/// Taken and failed among those that are meant.
pub fn count(freed: &[Freed], meant: impl Fn(&Pair) -> bool) -> [u32; 2] {
    [true, false].map(|through| {
        let such = freed.iter().filter(|transfer| transfer.got_through() == through);
        stopped(such.filter(|transfer| meant(&transfer.pair)).count() as u64)
    })
}

/// A count stops at what 32 bits hold.
pub fn stopped(count: u64) -> u32 {
    u32::try_from(count).unwrap_or(u32::MAX)
}
