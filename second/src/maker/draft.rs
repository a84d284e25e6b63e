//! A scenario in the making, with the bus it leads to, and the calls both
//! kinds of makers use.

use super::longest;
use crate::bench;
use crate::bus::Bus;
use crate::event::{Pair, Word};
use crate::random::Random;
use crate::scenario::{self, Op};
use crate::wire::{goes_as_pair, is_master, slave_of, spelled, BROADCAST, ESC, MAX_DATA, NAK, SYN};
use std::collections::BTreeSet;

const HALVES: [u8; 5] = [0x0, 0x1, 0x3, 0x7, 0xF];
const PBS: [u8; 3] = [0x05, 0x07, 0x50];
const SBS: [u8; 3] = [0x00, 0x02, 0x04];
const TELLING: [u8; 8] = [0x00, NAK, SYN, ESC, 0x01, BROADCAST, 0x10, 0x11];

pub struct Draft {
    pub random: Random,
    pub bytes: Vec<u8>,
    pub bus: Bus,
    /// The pairs of all transfers so far that are over.
    pub freed: BTreeSet<Pair>,
    /// Addresses the stations were attached with.
    masters: Vec<u8>,
    slaves: Vec<u8>,
}

impl Draft {
    pub fn new(seed: u64) -> Draft {
        Draft {
            random: Random::new(seed),
            bytes: Vec::new(),
            bus: Bus::new(),
            freed: BTreeSet::new(),
            masters: Vec::new(),
            slaves: Vec::new(),
        }
    }

    pub fn put(&mut self, op: Op) {
        scenario::write(&mut self.bytes, &op);
        // A call that is turned down belongs into the scenario as well.
        let _ = bench::operate(&mut self.bus, &op);
        self.freed.extend(self.bus.events().iter().filter_map(|event| match event.word {
            Word::Free(pair) => Some(pair),
            _ => None,
        }));
        self.bus.forget_events();
    }

    pub fn run(&mut self, count: u32) {
        self.put(Op::Run(count.min(u16::MAX as u32) as u16));
    }

    pub fn heard(&mut self, symbol: u8) {
        self.put(Op::Heard(symbol));
    }

    pub fn attach_stations(&mut self) {
        let (masters, slaves) = match self.random.below(100) {
            0..=59 => (self.random.between(1, 4), self.random.between(0, 4)),
            60..=84 => (self.random.between(2, 9), self.random.between(0, 6)),
            85..=94 => (self.random.between(10, 25), self.random.between(0, 10)),
            _ => (self.random.between(5, 40), self.random.between(20, 40)),
        };
        let class = self.random.pick(&HALVES);
        let one_class = self.random.percent(40);
        let (mut masters_left, mut slaves_left) = (masters, slaves);
        while masters_left + slaves_left > 0 {
            if self.random.percent(3) {
                self.attach_anything();
            }
            if self.random.below(masters_left + slaves_left) < masters_left {
                masters_left -= 1;
                let any = self.any_master();
                let address = if one_class { any & 0xF0 | class } else { any };
                self.attach_master(address);
            } else {
                slaves_left -= 1;
                self.attach_some_slave();
            }
        }
    }

    pub fn attach_master(&mut self, address: u8) {
        let before = self.bus.table().count();
        self.put(Op::Master(address));
        if self.bus.table().count() > before {
            self.masters.push(address);
        }
    }

    pub fn attach_some_slave(&mut self) {
        let address = self.slave_address();
        self.attach_slave(address);
    }

    fn attach_slave(&mut self, address: u8) {
        let before = self.bus.table().count();
        self.put(Op::Slave(address));
        if self.bus.table().count() > before {
            self.slaves.push(address);
        }
    }

    /// Mostly refused: a wrong kind, a used address, a bus that has run.
    pub fn attach_anything(&mut self) {
        let address = match self.random.below(4) {
            0 => self.random.byte(),
            1 => self.random.pick(&TELLING),
            2 => slave_of(self.any_master()),
            _ => self.attached_master(),
        };
        if self.random.percent(50) {
            self.attach_master(address);
        } else {
            self.attach_slave(address);
        }
        if self.random.percent(20) {
            self.put(Op::Run(0));
        }
    }

    pub fn any_master(&mut self) -> u8 {
        self.random.pick(&HALVES) << 4 | self.random.pick(&HALVES)
    }

    fn slave_address(&mut self) -> u8 {
        if self.random.percent(50) {
            self.random.pick(&[0x02, 0x04, 0x08, 0x15, 0x26, 0x52, 0xEC, 0xFC])
        } else {
            self.random.byte()
        }
    }

    pub fn attached_master(&mut self) -> u8 {
        if self.masters.is_empty() {
            return 0x10;
        }
        let from = self.masters.clone();
        self.random.pick(&from)
    }

    /// An address that somebody answers to as a slave, if there is anybody.
    pub fn attached_slave(&mut self) -> u8 {
        if self.slaves.is_empty() || self.random.percent(30) {
            return slave_of(self.attached_master());
        }
        let from = self.slaves.clone();
        self.random.pick(&from)
    }

    /// A target for a telegram, worth reading most of the time.
    pub fn target(&mut self) -> u8 {
        match self.random.below(100) {
            0..=54 => self.attached_slave(),
            55..=74 => self.attached_master(),
            75..=89 => BROADCAST,
            90..=94 => self.random.byte(),
            _ => self.random.pick(&TELLING),
        }
    }

    /// With few stations the first draw is often the source itself.
    fn target_other_than(&mut self, source: u8) -> u8 {
        let first = self.target();
        if first == source || first == slave_of(source) {
            return self.random.pick(&[0x08, 0x31, 0x52, BROADCAST, first]);
        }
        first
    }

    pub fn command(&mut self) -> [u8; 2] {
        if self.random.percent(4) {
            let telling = self.random.pick(&TELLING);
            return if self.random.percent(50) { [telling, 0x02] } else { [0x05, telling] };
        }
        [self.random.pick(&PBS), self.random.pick(&SBS)]
    }

    pub fn data_byte(&mut self) -> u8 {
        if self.random.percent(30) {
            self.random.pick(&TELLING)
        } else {
            self.random.byte()
        }
    }

    fn data(&mut self) -> Vec<u8> {
        let len = match self.random.below(100) {
            0..=54 => self.random.between(0, 3),
            55..=84 => self.random.between(0, 9),
            85..=95 => self.random.between(10, 16),
            _ => self.random.between(16, 20),
        };
        (0..len).map(|_| self.data_byte()).collect()
    }

    /// A symbol for a disturbed slot when nothing better is known.
    pub fn noise(&mut self) -> u8 {
        match self.random.below(10) {
            0..=4 => self.random.pick(&TELLING),
            5..=6 => self.any_master(),
            _ => self.random.byte(),
        }
    }

    pub fn queue_from(&mut self, source: u8) {
        let target = match self.random.below(100) {
            0..=1 => source,
            2..=3 => slave_of(source),
            _ => self.target_other_than(source),
        };
        let [pb, sb] = self.command();
        let head = [source, target, pb, sb];
        let data = self.data_behind(&head);
        self.put(Op::Queue { head, data: &data });
    }

    pub fn queue_something(&mut self) {
        let source = if self.random.percent(97) { self.attached_master() } else { self.noise() };
        self.queue_from(source);
    }

    pub fn reply_something(&mut self) {
        let address = if self.random.percent(92) { self.attached_slave() } else { self.target() };
        let [pb, sb] = self.command();
        self.reply_to(address, pb, sb);
    }

    pub fn reply_to(&mut self, address: u8, pb: u8, sb: u8) {
        let data = self.data_behind(&[]);
        self.put(Op::Reply { address, pb, sb, data: &data });
    }

    /// Data behind the head of a part; an answer has none. A few times in a
    /// hundred they take as many symbols as data can.
    pub fn data_behind(&mut self, head: &[u8]) -> Vec<u8> {
        if self.random.percent(4) {
            return longest::data(&mut self.random, head);
        }
        let mut data = self.data();
        self.steer(&mut data, head);
        data
    }

    /// Now and then the last data byte is chosen so that the check symbol has
    /// to go out as a pair.
    fn steer(&mut self, data: &mut [u8], head: &[u8]) {
        if data.is_empty() || data.len() > MAX_DATA || !self.random.percent(12) {
            return;
        }
        let pair = [ESC, self.random.below(2) as u8];
        let last = data.len() - 1;
        for value in 0..=0xFF {
            data[last] = value;
            if !goes_as_pair(value) && spelled(head, data).ends_with(&pair) {
                return;
            }
        }
    }

    /// Five or more telegrams of one master, or nine or more replies of one
    /// slave: the limits and the refusals behind them.
    pub fn crowd_one(&mut self) {
        if self.random.percent(60) {
            let source = self.attached_master();
            for _ in 0..self.random.between(3, 6) {
                self.queue_from(source);
            }
            if self.random.percent(30) {
                longest::at_the_limit(self, source);
            }
            return;
        }
        let address = self.attached_slave();
        for sb in 0..self.random.between(7, 10) as u8 {
            self.reply_to(address, 0x05, sb);
        }
    }

    /// Wrong in more ways than one, so that the order of checks shows.
    fn faulty_call(&mut self) {
        let pb = self.random.pick(&[ESC, SYN, 0x05, 0x05]);
        let sb = self.random.pick(&[ESC, 0x02, 0x0F, 0x0F]);
        let len = self.random.pick(&[1, 16, 17, 17]);
        let data = [0x64; MAX_DATA + 1];
        if self.random.percent(50) {
            let source =
                if self.random.percent(60) { self.attached_master() } else { self.noise() };
            let target = self.random.pick(&[ESC, source, slave_of(source), 0x08, 0x08]);
            self.put(Op::Queue { head: [source, target, pb, sb], data: &data[..len] });
        } else {
            let address =
                if self.random.percent(60) { self.attached_slave() } else { self.noise() };
            self.put(Op::Reply { address, pb, sb, data: &data[..len] });
        }
    }

    /// A call between slots.
    pub fn call(&mut self) {
        match self.random.below(100) {
            0..=58 => self.queue_something(),
            59..=84 => self.reply_something(),
            85..=92 => self.crowd_one(),
            93..=95 => self.faulty_call(),
            _ => self.attach_anything(),
        }
    }

    /// A symbol with the low half of a master but no master address.
    pub fn near_master(&mut self) -> u8 {
        let master = self.attached_master();
        let odd = master ^ 0x40;
        if is_master(odd) {
            master ^ 0x20
        } else {
            odd
        }
    }
}
