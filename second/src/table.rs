//! The stations: their addresses, queues and replies, and the calls that
//! fill them. A call that is turned down changes nothing.

use crate::wire::{is_master, is_slave, slave_of, Wire, ESC, MAX_DATA, SYN};

pub const MAX_STATIONS: usize = 32;
pub const QUEUE_DEPTH: usize = 4;
pub const REPLY_ENTRIES: usize = 8;

const NOBODY: u8 = 0xFF;

/// The number of a refusal.
pub type Refusal = u8;

/// A ring of expanded parts; the one in transfer stays at the head.
#[derive(Clone, Copy)]
struct Queue {
    parts: [Wire; QUEUE_DEPTH],
    head: u8,
    held: u8,
}

#[derive(Clone, Copy)]
struct Reply {
    command: [u8; 2],
    len: u8,
    data: [u8; MAX_DATA],
}

#[derive(Clone, Copy)]
struct Replies {
    entries: [Reply; REPLY_ENTRIES],
    held: u8,
}

#[derive(Clone)]
pub struct Table {
    names: [u8; MAX_STATIONS],
    queues: [Queue; MAX_STATIONS],
    replies: [Replies; MAX_STATIONS],
    /// For every address the station that answers to it.
    station_at: [u8; 256],
    count: u8,
    masters: u32,
    waiting: u32,
}

fn bad_command(pb: u8, sb: u8) -> bool {
    matches!(pb, ESC | SYN) || matches!(sb, ESC | SYN)
}

impl Table {
    pub fn new() -> Table {
        let queue = Queue { parts: [Wire::EMPTY; QUEUE_DEPTH], head: 0, held: 0 };
        let reply = Reply { command: [0; 2], len: 0, data: [0; MAX_DATA] };
        let replies = Replies { entries: [reply; REPLY_ENTRIES], held: 0 };
        Table {
            names: [0; MAX_STATIONS],
            queues: [queue; MAX_STATIONS],
            replies: [replies; MAX_STATIONS],
            station_at: [NOBODY; 256],
            count: 0,
            masters: 0,
            waiting: 0,
        }
    }

    fn in_use(&self, address: u8) -> bool {
        self.station_at[address as usize] != NOBODY
    }

    pub fn attach_master(&mut self, address: u8) -> Result<(), Refusal> {
        if !is_master(address) {
            return Err(8);
        }
        if self.in_use(address) || self.in_use(slave_of(address)) {
            return Err(9);
        }
        let station = self.enter(address)?;
        self.station_at[slave_of(address) as usize] = station;
        self.masters |= 1 << station;
        Ok(())
    }

    pub fn attach_slave(&mut self, address: u8) -> Result<(), Refusal> {
        if !is_slave(address) {
            return Err(8);
        }
        if self.in_use(address) {
            return Err(9);
        }
        self.enter(address).map(|_| ())
    }

    fn enter(&mut self, address: u8) -> Result<u8, Refusal> {
        let station = self.count;
        if station as usize == MAX_STATIONS {
            return Err(10);
        }
        self.names[station as usize] = address;
        self.station_at[address as usize] = station;
        self.count += 1;
        Ok(station)
    }

    pub fn queue(&mut self, head: [u8; 4], data: &[u8]) -> Result<(), Refusal> {
        let [qq, zz, pb, sb] = head;
        if !is_master(qq) || !self.in_use(qq) {
            return Err(1);
        }
        if zz == ESC || zz == SYN || zz == qq || zz == slave_of(qq) {
            return Err(2);
        }
        if bad_command(pb, sb) {
            return Err(3);
        }
        if data.len() > MAX_DATA {
            return Err(4);
        }
        let station = self.station_at[qq as usize];
        let queue = &mut self.queues[station as usize];
        if queue.held as usize == QUEUE_DEPTH {
            return Err(5);
        }
        let tail = (queue.head + queue.held) as usize % QUEUE_DEPTH;
        queue.parts[tail] = Wire::master_part(head, data);
        queue.held += 1;
        self.waiting |= 1 << station;
        Ok(())
    }

    pub fn reply(&mut self, address: u8, pb: u8, sb: u8, data: &[u8]) -> Result<(), Refusal> {
        if is_master(address) || !self.in_use(address) {
            return Err(11);
        }
        if bad_command(pb, sb) {
            return Err(3);
        }
        if data.len() > MAX_DATA {
            return Err(4);
        }
        let station = self.station_at[address as usize];
        let replies = &mut self.replies[station as usize];
        let held = replies.held as usize;
        let place = replies.find([pb, sb]).unwrap_or(held);
        if place == REPLY_ENTRIES {
            return Err(12);
        }
        let entry = &mut replies.entries[place];
        entry.command = [pb, sb];
        entry.len = data.len() as u8;
        entry.data[..data.len()].copy_from_slice(data);
        replies.held = replies.held.max(place as u8 + 1);
        Ok(())
    }

    /// The answer as the reply entries stand now; empty without an entry.
    pub fn answer(&self, station: u8, command: [u8; 2]) -> Wire {
        let replies = &self.replies[station as usize];
        match replies.find(command) {
            Some(place) => {
                let entry = &replies.entries[place];
                Wire::answer(&entry.data[..entry.len as usize])
            }
            None => Wire::answer(&[]),
        }
    }

    pub fn oldest(&self, station: u8) -> Wire {
        let queue = &self.queues[station as usize];
        queue.parts[queue.head as usize]
    }

    pub fn drop_oldest(&mut self, station: u8) {
        let queue = &mut self.queues[station as usize];
        queue.head = (queue.head + 1) % QUEUE_DEPTH as u8;
        queue.held -= 1;
        if queue.held == 0 {
            self.waiting &= !(1 << station);
        }
    }

    pub fn telegrams(&self, station: u8) -> u8 {
        self.queues[station as usize].held
    }

    /// The address the station was attached with.
    pub fn name(&self, station: u8) -> u8 {
        self.names[station as usize]
    }

    /// The station at an address as a set of one, or the empty set.
    pub fn set_at(&self, address: u8) -> u32 {
        match self.station_at[address as usize] {
            NOBODY => 0,
            station => 1 << station,
        }
    }

    pub fn everybody(&self) -> u32 {
        ((1u64 << self.count) - 1) as u32
    }

    pub fn masters(&self) -> u32 {
        self.masters
    }

    pub fn waiting(&self) -> u32 {
        self.waiting
    }

    pub fn count(&self) -> u8 {
        self.count
    }
}

impl Replies {
    fn find(&self, command: [u8; 2]) -> Option<usize> {
        let held = &self.entries[..self.held as usize];
        held.iter().position(|entry| entry.command == command)
    }
}
