//! The transfer under way, as an onlooker at the wire writes it down.

use crate::event::{Failure, Place, Tenure, Unusable};
use crate::intake::Intake;
use crate::wire::{Wire, BROADCAST};

/// Where the transfer stands. One stage holds for all who take part, because
/// all hear the same symbols and whoever gets out of step falls silent.
#[derive(Clone, Copy, PartialEq, Eq, Debug)]
pub enum Stage {
    /// Nobody takes part; only a SYN changes that.
    Silence,
    /// A master part is sent (if there is an owner) and read.
    Part,
    /// The part is over; the next symbol heard is its acknowledgement.
    PartVerdict,
    /// An answer is sent (if a slave is in step) and read.
    Answer,
    /// The answer is over; the next symbol heard is its acknowledgement.
    AnswerVerdict,
    /// The owner sends SYN and leaves.
    Release,
}

#[derive(Clone, Copy)]
pub struct Transfer {
    pub stage: Stage,
    pub owner: Option<u8>,
    /// Outlasts the owner to the end of the slot in which it leaves.
    pub tenure: Tenure,
    /// The slave that sends or has sent the answer.
    pub slave: Option<u8>,
    /// Stations that still read the master part, the owner not among them.
    pub readers: u32,
    /// What the owner sends, and how far it is.
    pub part: Wire,
    pub part_sent: usize,
    /// What the slave sends, fixed when its first slot begins.
    pub reply: Wire,
    pub reply_sent: usize,
    pub reply_fixed: bool,
    /// What has been read of the master part and of the answer.
    pub heard_part: Intake,
    pub heard_answer: Intake,
    pub part_repeated: bool,
    pub answer_repeated: bool,
    /// The last reading was sound.
    pub sound: bool,
    /// The acknowledgement goes out in the coming slot.
    pub ack_due: bool,
}

impl Transfer {
    pub fn silence() -> Transfer {
        Transfer {
            stage: Stage::Silence,
            owner: None,
            tenure: Tenure::Nobodys,
            slave: None,
            readers: 0,
            part: Wire::EMPTY,
            part_sent: 0,
            reply: Wire::EMPTY,
            reply_sent: 0,
            reply_fixed: false,
            heard_part: Intake::master_part(),
            heard_answer: Intake::answer(),
            part_repeated: false,
            answer_repeated: false,
            sound: false,
            ack_due: false,
        }
    }

    /// After a SYN: everybody reads from the start and nobody owns. What the
    /// part and the reply held is left as it is; nobody looks at it.
    pub fn start(&mut self, everybody: u32) {
        self.stage = Stage::Part;
        self.owner = None;
        self.tenure = Tenure::Nobodys;
        self.slave = None;
        self.readers = everybody;
        self.heard_part = Intake::master_part();
        self.part_repeated = false;
        self.ack_due = false;
    }

    /// The count begins in the slot of the owns line.
    pub fn owned_by(&mut self, station: u8, part: Wire) {
        self.owner = Some(station);
        self.tenure = Tenure::Held(0);
        self.part = part;
        self.part_sent = 0;
        self.readers &= !(1 << station);
    }

    /// Every slot counts while somebody owns, whatever is heard in it.
    pub fn slots_go_by(&mut self, count: u32) {
        if let Tenure::Held(slots) = &mut self.tenure {
            *slots = slots.wrapping_add(count);
        }
    }

    /// The slot of the free line was still inside.
    pub fn slot_is_over(&mut self) {
        if self.owner.is_none() && self.tenure != Tenure::Nobodys {
            self.tenure = Tenure::Left;
        }
    }

    /// The part from its first symbol again; who fell silent stays out.
    pub fn repeat_part(&mut self) {
        self.stage = Stage::Part;
        self.part_repeated = true;
        self.part_sent = 0;
        self.heard_part = Intake::master_part();
    }

    pub fn begin_answer(&mut self, slave: Option<u8>) {
        self.stage = Stage::Answer;
        self.slave = slave;
        self.reply_sent = 0;
        self.reply_fixed = false;
        self.answer_repeated = false;
        self.heard_answer = Intake::answer();
    }

    /// The same answer again, whatever the reply entries hold by now.
    pub fn repeat_answer(&mut self) {
        self.stage = Stage::Answer;
        self.answer_repeated = true;
        self.reply_sent = 0;
        self.heard_answer = Intake::answer();
    }

    /// The transfer is done with: an owner still has to release the wire.
    pub fn wind_up(&mut self) {
        self.slave = None;
        self.readers = 0;
        self.ack_due = false;
        self.stage = match self.owner {
            Some(_) => Stage::Release,
            None => Stage::Silence,
        };
    }

    /// What has just been read and cannot be used, and where it stands.
    pub fn unusable(&self, failure: Failure, after_quiet: bool) -> Unusable {
        let read = match self.stage {
            Stage::Answer => &self.heard_answer,
            _ => &self.heard_part,
        };
        Unusable {
            failure,
            place: self.place(),
            at_check: read.at_check(),
            behind_pair: read.behind_pair(),
            after_quiet,
        }
    }

    fn place(&self) -> Place {
        match self.stage {
            Stage::Answer if self.answer_repeated => Place::AnswerRepeated,
            Stage::Answer => Place::Answer,
            _ if self.heard_part.target() == BROADCAST => Place::Broadcast,
            _ if self.part_repeated => Place::PartRepeated,
            _ => Place::Part,
        }
    }

    /// With nobody left in step nothing more can come of the transfer.
    pub fn abandon_if_deserted(&mut self) -> bool {
        let deserted = self.owner.is_none() && self.slave.is_none() && self.readers == 0;
        if deserted {
            self.stage = Stage::Silence;
        }
        deserted
    }
}
