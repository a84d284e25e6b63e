//! How often the display showed what, and what made it change.

use crate::bus::Bus;
use crate::coverage::{never, write_counts};
use crate::event::{Failure, Role, Word};
use crate::scenario::Op;
use crate::walk::{walk, Walk};
use crate::wire::{is_master, rank};
use std::collections::BTreeSet;
use std::fmt;

const NAMES: [&str; 23] = [
    "master",
    "nobody-idle",
    "nobody-waiting",
    "several",
    "not-least-number",
    "not-first-attached",
    "marked-only",
    "unmarked-before-marked",
    "nobody-marked",
    "queued-first",
    "queued-before",
    "queued-behind",
    "queued-unadmitted",
    "queued-too-late",
    "refused-call",
    "reply",
    "run-0",
    "syn-after-syn",
    "left-next-again",
    "left-failed-1",
    "left-failed-4",
    "refused-14",
    "refused-15",
];

const MASTER: usize = 0;
const NOBODY_IDLE: usize = 1;
const NOBODY_WAITING: usize = 2;
/// The first of three: where several are admitted, and where another way to
/// choose would show another.
const SEVERAL: usize = 3;
/// The first of three after a SYN that did not admit all who wait.
const MARKED_ONLY: usize = 6;
/// The first of what a call after a SYN comes to.
const QUEUED: usize = 9;
const QUEUED_TOO_LATE: usize = 13;
const REFUSED_CALL: usize = 14;
const REPLY: usize = 15;
const RUN_0: usize = 16;
const SYN_AFTER_SYN: usize = 17;
const LEFT: usize = 18;
const REFUSED_14: usize = 21;

/// What can be seen of the bus between two fields.
pub struct Sight {
    after_syn: bool,
    walk: Walk,
}

impl Sight {
    pub fn of(bus: &Bus) -> Sight {
        Sight { after_syn: bus.after_syn(), walk: walk(bus) }
    }

    pub fn next(&self) -> Option<u8> {
        self.walk.next()
    }
}

#[derive(Clone, Default)]
pub struct DisplayCoverage {
    scenarios: u64,
    lines: u64,
    counts: [u64; NAMES.len()],
    /// The masters that were next at some time.
    shown: BTreeSet<u8>,
}

impl DisplayCoverage {
    pub fn scenario(&mut self) {
        self.scenarios += 1;
    }

    pub fn refused_form(&mut self, number: u8) {
        self.counts[REFUSED_14 + number as usize - 14] += 1;
    }

    fn count(&mut self, place: usize, so: bool) {
        self.counts[place] += u64::from(so);
    }

    pub fn line(&mut self, op: &Op, refused: bool, before: &Sight, after: &Sight) {
        self.lines += 1;
        self.shown.extend(after.next());
        let idle = after.walk.waiting.is_empty();
        let place = match after.next() {
            Some(_) => MASTER,
            None if idle => NOBODY_IDLE,
            None => NOBODY_WAITING,
        };
        self.count(place, true);
        self.choice(&after.walk);
        if after.after_syn {
            self.shut_out(&after.walk);
            self.call(op, refused, before, after);
        }
        let late = matches!(op, Op::Queue { .. }) && !refused && !after.after_syn;
        self.count(QUEUED_TOO_LATE, late);
        let syn_again = matches!(op, Op::Heard(_)) && before.after_syn && after.after_syn;
        self.count(SYN_AFTER_SYN, syn_again && after.next().is_some());
    }

    /// Where another way to choose would show another master.
    fn choice(&mut self, walk: &Walk) {
        let next = walk.next();
        self.count(SEVERAL, walk.admitted.len() > 1);
        self.count(SEVERAL + 1, walk.admitted.iter().min().copied() != next);
        self.count(SEVERAL + 2, walk.admitted.first().copied() != next);
    }

    /// Right after a SYN everybody who waits is admitted, unless it was one for
    /// the marked.
    fn shut_out(&mut self, walk: &Walk) {
        if walk.admitted.len() == walk.waiting.len() {
            return;
        }
        let best = walk.waiting.iter().copied().min_by_key(|&master| rank(master));
        self.count(MARKED_ONLY, walk.next().is_some());
        self.count(MARKED_ONLY + 1, walk.next().is_some() && best != walk.next());
        self.count(MARKED_ONLY + 2, walk.next().is_none());
    }

    /// A call between a SYN and the next slot.
    fn call(&mut self, op: &Op, refused: bool, before: &Sight, after: &Sight) {
        let (old, new) = (before.next(), after.next());
        if refused {
            return self.count(REFUSED_CALL, new.is_some());
        }
        match op {
            Op::Queue { head, .. } => {
                let admitted = after.walk.admitted.contains(&head[0]);
                self.count(QUEUED, old.is_none() && new.is_some());
                self.count(QUEUED + 1, old.is_some() && old != new);
                self.count(QUEUED + 2, old.is_some() && old == new && admitted);
                self.count(QUEUED + 3, !admitted);
            }
            Op::Reply { .. } => self.count(REPLY, new.is_some()),
            Op::Run(0) => self.count(RUN_0, new.is_some()),
            _ => {}
        }
    }

    /// Owners that have left in the very slot of the SYN: next again with
    /// another telegram, or failed by it.
    pub fn left(&mut self, bus: &Bus, after: &Sight) {
        if !after.after_syn {
            return;
        }
        for event in bus.events().iter().filter(|event| event.slot == bus.slot_number()) {
            let again = after.next() == Some(bus.table().name(event.station));
            match event.word {
                Word::Free(_) => self.count(LEFT, again),
                Word::Failed(Role::Owner, Failure::NotItsOwn) => self.count(LEFT + 1, true),
                Word::Failed(Role::Owner, Failure::Syn) => self.count(LEFT + 2, true),
                _ => {}
            }
        }
    }

    pub fn add(&mut self, other: &DisplayCoverage) {
        self.scenarios += other.scenarios;
        self.lines += other.lines;
        for (mine, theirs) in self.counts.iter_mut().zip(other.counts) {
            *mine += theirs;
        }
        self.shown.extend(&other.shown);
    }

    /// What never came up, and the masters that were never next.
    pub fn missing(&self) -> Vec<String> {
        let counts = never(&NAMES, &self.counts).into_iter().map(str::to_string);
        let masters = (0..=0xFF).filter(|&address| is_master(address));
        let unseen = masters.filter(|master| !self.shown.contains(master));
        counts.chain(unseen.map(|master| format!("next-{master:02X}"))).collect()
    }
}

impl fmt::Display for DisplayCoverage {
    fn fmt(&self, f: &mut fmt::Formatter) -> fmt::Result {
        write!(f, "display scenarios={} lines={}", self.scenarios, self.lines)?;
        write_counts(f, &NAMES, &self.counts)?;
        write!(f, " masters-shown={}", self.shown.len())
    }
}
