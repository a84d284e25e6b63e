//! What the stations are told in a slot.

use crate::intake::{BrokenPair, Intake};

/// A sender is either the owner of the wire or a slave with its answer. The
/// bench line does not tell them apart; the coverage count does.
#[derive(Clone, Copy, PartialEq, Eq, Debug)]
pub enum Role {
    Owner,
    Slave,
}

/// Why a sender or an owner is told failed. Two causes have the number 5, and
/// one of them carries the numbers of 02 (E6).
#[derive(Clone, Copy, PartialEq, Eq, Debug)]
pub enum Failure {
    /// Something else was heard than the symbol sent, or quiet.
    NotItsOwn,
    /// The acknowledgement was no acknowledgement, or 00 for a wrong CRC.
    NoVerdict,
    RefusedTwice,
    Syn,
    BrokenPair(BrokenPair),
    OverLong,
}

impl Failure {
    pub fn number(self) -> u8 {
        match self {
            Failure::NotItsOwn => 1,
            Failure::NoVerdict => 2,
            Failure::RefusedTwice => 3,
            Failure::Syn => 4,
            Failure::BrokenPair(_) | Failure::OverLong => 5,
        }
    }
}

/// What somebody in step has read and nobody can use: an NN above 16 or a
/// broken pair. Silent readers are told nothing, so this is no event; the
/// coverage counts it.
#[derive(Clone, Copy, Debug)]
pub struct Unusable {
    pub failure: Failure,
    pub place: Place,
    pub at_check: bool,
    pub behind_pair: bool,
    /// Quiet slots stand right before the symbol that was too much.
    pub after_quiet: bool,
}

#[derive(Clone, Copy, PartialEq, Eq, Debug)]
pub enum Place {
    Part,
    PartRepeated,
    Broadcast,
    Answer,
    AnswerRepeated,
}

/// QQ and ZZ of a telegram.
pub type Pair = [u8; 2];

#[derive(Clone, Copy)]
pub enum Word {
    Owns,
    Taken(Role),
    Failed(Role, Failure),
    /// With the pair of the telegram that leaves the queue; only the counts of
    /// 02 (E9) show it.
    Free(Pair),
    Given {
        part: Intake,
        broadcast: bool,
    },
    Answer {
        slave: u8,
        part: Intake,
    },
}

/// How the slot of an event stands to an owner. Only the coverage tells those
/// who go on without their owner from those who never had one.
#[derive(Clone, Copy, PartialEq, Eq, Debug)]
pub enum Tenure {
    /// Nobody has owned the wire since the last SYN.
    Nobodys,
    /// So many slots since the owner's owns line.
    Held(u32),
    /// The owner has left before this slot.
    Left,
}

#[derive(Clone, Copy)]
pub struct Event {
    pub slot: u32,
    pub tenure: Tenure,
    pub station: u8,
    pub word: Word,
}

impl Event {
    /// The elapsed slots of 02 (E4); 0 outside a transfer.
    pub fn elapsed(&self) -> u32 {
        match self.tenure {
            Tenure::Held(slots) => slots,
            Tenure::Nobodys | Tenure::Left => 0,
        }
    }

    /// Parts handed out come after everything else; within each of the two
    /// groups the stations stand in attach order.
    pub fn rank(&self) -> (bool, u8) {
        let handed_out = matches!(self.word, Word::Given { .. } | Word::Answer { .. });
        (handed_out, self.station)
    }
}
