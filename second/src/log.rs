//! The log that 02 asks for (E1), as a plain list: there is no buffer here and
//! no place in one, only sizes that are added up.

use crate::event::{Event, Failure, Word};
use crate::scenario::push_field;
use crate::table::Refusal;
use std::ops::RangeInclusive;

pub const LENGTHS: RangeInclusive<u64> = 64..=65_536;

/// All records ever noted; the oldest ones count no more once they have gone.
pub struct Log {
    length: usize,
    records: Vec<Vec<u8>>,
    gone: usize,
    bytes_held: usize,
}

impl Log {
    pub fn set_up(length: u64) -> Result<Log, Refusal> {
        if !LENGTHS.contains(&length) {
            return Err(16);
        }
        Ok(Log { length: length as usize, records: Vec::new(), gone: 0, bytes_held: 0 })
    }

    /// The oldest go until the new record fits. It always does: the longest,
    /// a part of 16 data bytes handed out, has 28 bytes.
    pub fn note(&mut self, record: Vec<u8>) {
        self.bytes_held += record.len();
        self.records.push(record);
        while self.bytes_held > self.length {
            self.bytes_held -= self.records[self.gone].len();
            self.gone += 1;
        }
    }

    /// What is held, oldest first.
    pub fn held(&self) -> &[Vec<u8>] {
        &self.records[self.gone..]
    }

    pub fn length(&self) -> usize {
        self.length
    }

    pub fn gone(&self) -> usize {
        self.gone
    }

    pub fn bytes_held(&self) -> usize {
        self.bytes_held
    }
}

/// One event in the tagged form; the station is named as in the bench lines.
pub fn record(station: u8, event: &Event) -> Vec<u8> {
    let (tag, values) = tag_and_values(event);
    let [a, b, c, d] = event.slot.to_be_bytes();
    let mut record = Vec::new();
    push_field(&mut record, tag, &[a, b, c, d, station], &values);
    record
}

/// Tags count the words in the order in which 01 names them.
fn tag_and_values(event: &Event) -> (u8, Vec<u8>) {
    match &event.word {
        Word::Owns => (1, vec![]),
        Word::Taken(_) => (2, vec![]),
        Word::Failed(_, failure @ Failure::BrokenPair(pair)) => {
            (3, vec![failure.number(), pair.position, pair.symbol])
        }
        Word::Failed(_, failure) => (3, vec![failure.number()]),
        Word::Free(_) => (4, event.elapsed().to_be_bytes().to_vec()),
        Word::Given { part, .. } => {
            (5, [&[part.source()], &part.command()[..], part.payload()].concat())
        }
        Word::Answer { slave, part } => (6, [&[*slave], part.payload()].concat()),
    }
}
