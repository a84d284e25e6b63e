//! The bus: one observer of the wire for all stations at once.
//!
//! No station has a state of its own here. The observer keeps the transfer,
//! sets of stations (admitted, marked, still reading) and the generator's
//! count, and derives from them who sends and who is told what.

use crate::event::{Event, Failure, Role, Unusable, Word};
use crate::intake::{Fed, Intake};
use crate::table::{Refusal, Table};
use crate::transfer::{Stage, Transfer};
use crate::wire::{class, is_master, ACK, BROADCAST, NAK, SYN};

/// After so many quiet slots in a row the generator sends.
const QUIET_LIMIT: u8 = 9;

/// What is heard in a slot: a symbol or quiet.
pub type Heard = Option<u8>;

#[derive(Clone)]
pub struct Bus {
    table: Table,
    transfer: Transfer,
    events: Vec<Event>,
    unusable: Vec<Unusable>,
    slot: u32,
    has_run: bool,
    quiet: u8,
    syn_heard: bool,
    /// Symbols since the last SYN; two stands for "two or more".
    symbols: u8,
    admitted: u32,
    marked: u32,
    /// The last slot was heard as SYN.
    after_syn: bool,
}

/// The stations of a set, in attach order.
fn members(mut set: u32) -> impl Iterator<Item = u8> {
    std::iter::from_fn(move || {
        if set == 0 {
            return None;
        }
        let station = set.trailing_zeros() as u8;
        set &= set - 1;
        Some(station)
    })
}

/// What a verdict comes to that is neither 00 nor the first FF.
fn verdict_failure(symbol: u8) -> Failure {
    match symbol {
        NAK => Failure::RefusedTwice,
        _ => Failure::NoVerdict,
    }
}

impl Bus {
    pub fn new() -> Bus {
        Bus {
            table: Table::new(),
            transfer: Transfer::silence(),
            events: Vec::new(),
            unusable: Vec::new(),
            slot: 0,
            has_run: false,
            quiet: 0,
            syn_heard: false,
            symbols: 0,
            admitted: 0,
            marked: 0,
            after_syn: false,
        }
    }

    pub fn attach_master(&mut self, address: u8) -> Result<(), Refusal> {
        if self.has_run {
            return Err(7);
        }
        self.table.attach_master(address)
    }

    pub fn attach_slave(&mut self, address: u8) -> Result<(), Refusal> {
        if self.has_run {
            return Err(7);
        }
        self.table.attach_slave(address)
    }

    pub fn queue(&mut self, head: [u8; 4], data: &[u8]) -> Result<(), Refusal> {
        self.table.queue(head, data)
    }

    pub fn reply(&mut self, address: u8, pb: u8, sb: u8, data: &[u8]) -> Result<(), Refusal> {
        self.table.reply(address, pb, sb, data)
    }

    pub fn slot_number(&self) -> u32 {
        self.slot
    }

    pub fn table(&self) -> &Table {
        &self.table
    }

    pub fn transfer(&self) -> &Transfer {
        &self.transfer
    }

    pub fn events(&self) -> &[Event] {
        &self.events
    }

    /// Each NN above 16 and each broken pair that somebody in step has read.
    pub fn unusable(&self) -> &[Unusable] {
        &self.unusable
    }

    pub fn forget_events(&mut self) {
        self.events.clear();
        self.unusable.clear();
    }

    pub fn is_admitted(&self, station: u8) -> bool {
        self.admitted >> station & 1 == 1
    }

    /// Masters that will send their QQ in the coming slot.
    pub fn contenders(&self) -> u32 {
        self.admitted & self.table.waiting()
    }

    /// Undisturbed slots. Whoever sends does so in the slot right after a
    /// symbol, so once nobody sends all is quiet until the generator steps in.
    pub fn run(&mut self, count: u32) {
        let mut left = count;
        while left > 0 {
            if self.at_rest() && left >= 10 {
                let tens = left - left % 10;
                self.slots_go_by(tens);
                left -= tens;
                continue;
            }
            match self.sent() {
                None => {
                    let quiet = left.min((QUIET_LIMIT - self.quiet) as u32);
                    self.pass_quietly(quiet);
                    left -= quiet;
                }
                symbol => {
                    self.pass(symbol);
                    left -= 1;
                }
            }
        }
    }

    /// One slot in which all hear the given symbol, or quiet.
    pub fn run_disturbed(&mut self, heard: Heard) {
        // What is sent does not matter, but an answer is fixed by asking.
        let _ = self.sent();
        self.pass(heard);
    }

    /// Nine quiet slots since a SYN and nothing queued: the coming SYN and
    /// nine more quiet slots lead back to exactly this state.
    fn at_rest(&self) -> bool {
        self.quiet == QUIET_LIMIT
            && self.syn_heard
            && self.symbols == 0
            && self.table.waiting() == 0
    }

    /// What goes out on the wire in the coming slot. Only contenders ever
    /// send at the same time.
    pub fn sent(&mut self) -> Heard {
        if self.quiet == QUIET_LIMIT {
            return Some(SYN);
        }
        let contenders = self.contenders();
        if contenders != 0 {
            let names = members(contenders).map(|station| self.table.name(station));
            return Some(names.fold(0xFF, |word, name| word & name));
        }
        let transfer = &self.transfer;
        match transfer.stage {
            Stage::Silence => None,
            Stage::Part => transfer.owner.map(|_| transfer.part.at(transfer.part_sent)),
            Stage::Answer => self.answer_symbol(),
            Stage::PartVerdict | Stage::AnswerVerdict => {
                let verdict = if transfer.sound { ACK } else { NAK };
                transfer.ack_due.then_some(verdict)
            }
            Stage::Release => Some(SYN),
        }
    }

    /// The answer is taken from the reply entries as its first slot begins.
    fn answer_symbol(&mut self) -> Heard {
        let slave = self.transfer.slave?;
        if !self.transfer.reply_fixed {
            let command = self.transfer.heard_part.command();
            self.transfer.reply = self.table.answer(slave, command);
            self.transfer.reply_fixed = true;
        }
        Some(self.transfer.reply.at(self.transfer.reply_sent))
    }

    /// Here alone slots are counted, so that none is lost to a shortcut.
    fn slots_go_by(&mut self, count: u32) {
        self.slot = self.slot.wrapping_add(count);
        self.has_run = true;
        self.transfer.slots_go_by(count);
    }

    /// Quiet slots in which nobody sends and the generator stays quiet.
    fn pass_quietly(&mut self, count: u32) {
        self.slots_go_by(count);
        self.quiet += count as u8;
        self.admitted = 0;
        self.after_syn = false;
    }

    fn pass(&mut self, heard: Heard) {
        let generated = self.quiet == QUIET_LIMIT;
        let told_before = self.events.len();
        self.slots_go_by(1);
        match heard {
            None => self.hear_quiet(),
            Some(SYN) => self.hear_syn(),
            Some(symbol) => self.hear_symbol(symbol),
        }
        self.after_syn = heard == Some(SYN);
        self.transfer.slot_is_over();
        let counts = heard.is_none() && !generated;
        self.quiet = if counts { self.quiet + 1 } else { 0 };
        let told = &mut self.events[told_before..];
        if told.len() > 1 {
            told.sort_by_key(Event::rank);
        }
    }

    fn tell(&mut self, station: u8, word: Word) {
        let tenure = self.transfer.tenure;
        self.events.push(Event { slot: self.slot, tenure, station, word });
    }

    /// The owner leaves the wire and its telegram leaves the queue.
    fn owner_leaves(&mut self) {
        if let Some(owner) = self.transfer.owner.take() {
            self.tell(owner, Word::Free(self.table.oldest(owner).addresses()));
            self.table.drop_oldest(owner);
        }
    }

    fn owner_fails(&mut self, failure: Failure) {
        if let Some(owner) = self.transfer.owner {
            self.tell(owner, Word::Failed(Role::Owner, failure));
        }
    }

    fn slave_fails(&mut self, failure: Failure) {
        if let Some(slave) = self.transfer.slave.take() {
            self.tell(slave, Word::Failed(Role::Slave, failure));
        }
    }

    /// Quiet breaks off whoever sends a part and is skipped by all others.
    fn hear_quiet(&mut self) {
        self.admitted = 0;
        self.transfer.ack_due = false;
        match self.transfer.stage {
            Stage::Part => {
                self.owner_fails(Failure::NotItsOwn);
                self.owner_leaves();
                self.transfer.abandon_if_deserted();
            }
            Stage::Answer => {
                self.slave_fails(Failure::NotItsOwn);
                self.transfer.abandon_if_deserted();
            }
            Stage::Release => self.released(),
            Stage::Silence | Stage::PartVerdict | Stage::AnswerVerdict => {}
        }
    }

    fn released(&mut self) {
        self.owner_leaves();
        self.transfer.stage = Stage::Silence;
    }

    /// SYN ends whatever was under way and opens the admission.
    fn hear_syn(&mut self) {
        match self.transfer.stage {
            Stage::Part => self.owner_fails(Failure::NotItsOwn),
            Stage::PartVerdict => self.owner_fails(Failure::Syn),
            Stage::Answer => {
                self.owner_fails(Failure::Syn);
                self.slave_fails(Failure::NotItsOwn);
            }
            Stage::AnswerVerdict => {
                self.owner_fails(Failure::Syn);
                self.slave_fails(Failure::Syn);
            }
            Stage::Release | Stage::Silence => {}
        }
        self.owner_leaves();
        let only_marked = self.syn_heard && self.symbols == 1;
        self.admitted = if only_marked { self.marked } else { self.table.masters() };
        self.marked = 0;
        self.symbols = 0;
        self.syn_heard = true;
        self.transfer.start(self.table.everybody());
    }

    fn hear_symbol(&mut self, symbol: u8) {
        if self.syn_heard && self.symbols < 2 {
            self.symbols += 1;
        }
        if self.admitted != 0 {
            self.settle_contest(symbol);
        }
        match self.transfer.stage {
            Stage::Silence => {}
            Stage::Part => self.part_goes_on(symbol),
            Stage::PartVerdict => self.judge_part(symbol),
            Stage::Answer => self.answer_goes_on(symbol),
            Stage::AnswerVerdict => self.judge_answer(symbol),
            Stage::Release => self.released(),
        }
    }

    /// The slot after SYN: at most one contender hears its own address. The
    /// losers whose class is the low half of what was heard mark themselves.
    fn settle_contest(&mut self, symbol: u8) {
        for station in members(self.contenders()) {
            let name = self.table.name(station);
            if name == symbol {
                self.transfer.owned_by(station, self.table.oldest(station));
                self.tell(station, Word::Owns);
            } else if class(name) == class(symbol) {
                self.marked |= 1 << station;
            }
        }
        self.admitted = 0;
    }

    fn part_goes_on(&mut self, symbol: u8) {
        if self.transfer.owner.is_some() {
            if self.transfer.part.at(self.transfer.part_sent) == symbol {
                self.transfer.part_sent += 1;
            } else {
                self.owner_fails(Failure::NotItsOwn);
                self.owner_leaves();
            }
        }
        if self.transfer.abandon_if_deserted() {
            return;
        }
        match self.transfer.heard_part.feed(symbol) {
            Fed::More => {}
            Fed::Target => self.narrow_readers(),
            Fed::Misplaced => self.transfer.wind_up(),
            Fed::BrokenPair(pair) => self.hear_unusable(Failure::BrokenPair(pair)),
            Fed::OverLong => self.hear_unusable(Failure::OverLong),
            Fed::Whole(sound) => self.part_is_over(sound),
        }
    }

    /// Nobody acknowledges. An owner is still there only if this is an answer:
    /// its own part it hears as it sent it, or it has failed.
    fn hear_unusable(&mut self, failure: Failure) {
        self.unusable.push(self.transfer.unusable(failure, self.quiet > 0));
        self.owner_fails(failure);
        self.transfer.wind_up();
    }

    /// With the target known, all it does not name fall silent.
    fn narrow_readers(&mut self) {
        let target = self.transfer.heard_part.target();
        if target != BROADCAST {
            self.transfer.readers &= self.table.set_at(target);
            self.transfer.abandon_if_deserted();
        }
    }

    fn part_is_over(&mut self, sound: bool) {
        if self.transfer.heard_part.target() != BROADCAST {
            self.transfer.stage = Stage::PartVerdict;
            self.transfer.sound = sound;
            self.transfer.ack_due = self.transfer.readers != 0;
            return;
        }
        // An owner still in step has sent all of a sound part.
        if let Some(owner) = self.transfer.owner {
            self.tell(owner, Word::Taken(Role::Owner));
        }
        if sound {
            self.hand_out(true);
        }
        self.transfer.wind_up();
    }

    fn hand_out(&mut self, broadcast: bool) {
        let part = self.transfer.heard_part;
        for station in members(self.transfer.readers) {
            self.tell(station, Word::Given { part, broadcast });
        }
    }

    fn judge_part(&mut self, symbol: u8) {
        self.transfer.ack_due = false;
        match symbol {
            ACK => self.part_is_taken(),
            NAK if !self.transfer.part_repeated => self.transfer.repeat_part(),
            other => {
                self.owner_fails(verdict_failure(other));
                self.transfer.wind_up();
            }
        }
    }

    fn part_is_taken(&mut self) {
        if let Some(owner) = self.transfer.owner {
            self.tell(owner, Word::Taken(Role::Owner));
        }
        if !self.transfer.sound {
            self.transfer.wind_up();
            return;
        }
        self.hand_out(false);
        if is_master(self.transfer.heard_part.target()) {
            self.transfer.wind_up();
            return;
        }
        let slave = members(self.transfer.readers).next();
        self.transfer.readers = 0;
        self.transfer.begin_answer(slave);
    }

    fn answer_goes_on(&mut self, symbol: u8) {
        if self.transfer.slave.is_some() {
            if self.transfer.reply.at(self.transfer.reply_sent) == symbol {
                self.transfer.reply_sent += 1;
            } else {
                self.slave_fails(Failure::NotItsOwn);
            }
        }
        if self.transfer.abandon_if_deserted() {
            return;
        }
        match self.transfer.heard_answer.feed(symbol) {
            // The last two stand before NN, where an answer begins.
            Fed::More | Fed::Target | Fed::Misplaced => {}
            Fed::BrokenPair(pair) => self.hear_unusable(Failure::BrokenPair(pair)),
            Fed::OverLong => self.hear_unusable(Failure::OverLong),
            Fed::Whole(sound) => {
                self.transfer.stage = Stage::AnswerVerdict;
                self.transfer.sound = sound;
                self.transfer.ack_due = self.transfer.owner.is_some();
            }
        }
    }

    fn judge_answer(&mut self, symbol: u8) {
        self.transfer.ack_due = false;
        match symbol {
            ACK => self.answer_is_taken(),
            NAK if !self.transfer.answer_repeated => self.transfer.repeat_answer(),
            other => {
                self.owner_fails(verdict_failure(other));
                self.slave_fails(verdict_failure(other));
                self.transfer.wind_up();
            }
        }
    }

    /// The slave's own reading of 00 does not depend on the owner's check.
    fn answer_is_taken(&mut self) {
        if let Some(slave) = self.transfer.slave {
            self.tell(slave, Word::Taken(Role::Slave));
        }
        if let Some(owner) = self.transfer.owner {
            let word = if self.transfer.sound {
                let slave = self.transfer.heard_part.target();
                Word::Answer { slave, part: self.transfer.heard_answer }
            } else {
                Word::Failed(Role::Owner, Failure::NoVerdict)
            };
            self.tell(owner, word);
        }
        self.transfer.wind_up();
    }

    #[cfg(test)]
    pub fn set_slot_number(&mut self, slot: u32) {
        self.slot = slot;
    }
}

/// For the scenario maker and the coverage: what they may want to know of the
/// wire.
impl Bus {
    pub fn after_syn(&self) -> bool {
        self.after_syn
    }

    pub fn symbols_since_syn(&self) -> u8 {
        self.symbols
    }

    pub fn slots_to_syn(&self) -> u32 {
        (QUIET_LIMIT - self.quiet) as u32 + 1
    }

    pub fn heard_part(&self) -> &Intake {
        &self.transfer.heard_part
    }
}
