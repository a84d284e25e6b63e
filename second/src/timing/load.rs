//! The scenarios that are timed.

use crate::bus::Bus;
use crate::scenario::{self, Op, MAX_BYTES};
use crate::wire::{is_master, slave_of, SYN};

pub struct Load {
    pub name: &'static str,
    pub scenario: Vec<u8>,
    /// Or lines, where each is asked for.
    pub slots: u32,
}

pub fn all() -> [Load; 12] {
    [
        empty(),
        idle(),
        busy(),
        rest(),
        answers(),
        broadcasts(),
        sender("1 of 1", 1, NOBODY),
        sender("1 of 8", 8, NOBODY),
        sender("1 of 32", 32, NOBODY),
        sender("all of 1", 1, BROADCAST),
        sender("all of 8", 8, BROADCAST),
        sender("all of 32", 32, BROADCAST),
    ]
}

/// Who is next, asked over and over between a SYN and the next slot, with one
/// master waiting and so many stations attached.
pub fn asked() -> [Load; 4] {
    [empty(), asks("asks of 1", 1), asks("asks of 8", 8), asks("asks of 32", 32)]
}

fn asks(name: &'static str, stations: usize) -> Load {
    let masters = masters();
    let seated = masters.len().min(stations);
    let mut scenario = File::new(name, &masters[..seated], &SLAVES[..stations - seated]).scenario;
    let head = [masters[0], BROADCAST, 0x50, 0x02];
    scenario::write(&mut scenario, &Op::Queue { head, data: &[] });
    scenario::write(&mut scenario, &Op::Heard(SYN));
    let fields = stations + 2;
    let runs = ASKS - fields;
    for _ in 0..runs {
        scenario::write(&mut scenario, &Op::Run(0));
    }
    Load { name, scenario, slots: ASKS as u32 }
}

/// As many lines for each of them.
const ASKS: usize = 13_000;

fn empty() -> Load {
    Load { name: "empty", scenario: Vec::new(), slots: 0 }
}

fn masters() -> Vec<u8> {
    (0..=255).filter(|&address| is_master(address)).collect()
}

/// 32 stations that read, and one slot after another heard as quiet.
fn idle() -> Load {
    let mut scenario = Vec::new();
    for address in masters() {
        scenario::write(&mut scenario, &Op::Master(address));
    }
    for address in SLAVES {
        scenario::write(&mut scenario, &Op::Slave(address));
    }
    scenario::write(&mut scenario, &Op::Heard(SYN));
    let quiet = (MAX_BYTES - scenario.len()) / 3;
    for _ in 0..quiet {
        scenario::write(&mut scenario, &Op::Quiet);
    }
    Load { name: "idle", scenario, slots: quiet as u32 + 1 }
}

/// All masters with full queues. Each telegram goes to the slave address of
/// the next master.
fn busy() -> Load {
    let masters = masters();
    let mut file = File::new("busy", &masters, &[]);
    let next = |place: usize| slave_of(masters[(place + 1) % masters.len()]);
    let round = full(&masters, |place| ([masters[place], next(place), 0x50, 0x02], &[]));
    file.fill(&round)
}

/// The most slots in which somebody is awake that were found for a file: every
/// seat taken, and each telegram, of the fewest bytes, fetches the longest answer.
fn answers() -> Load {
    let masters = masters();
    let mut file = File::new("answers", &masters, &SLAVES);
    for address in SLAVES {
        let reply = Op::Reply { address, pb: 0x50, sb: 0x02, data: &LONG };
        scenario::write(&mut file.scenario, &reply);
        file.bus.reply(address, 0x50, 0x02, &LONG).expect("the book is empty");
    }
    let slave = |place: usize| SLAVES[place % SLAVES.len()];
    let round = full(&masters, |place| ([masters[place], slave(place), 0x50, 0x02], &[]));
    file.fill(&round)
}

/// The most turns of stations that are awake that were found for a file: every
/// seat taken, the masters collide, and all read parts of 16 pairs.
fn broadcasts() -> Load {
    let masters = masters();
    let mut file = File::new("broadcasts", &masters, &SLAVES);
    file.fill(&full(&masters, |place| ([masters[place], BROADCAST, 0x50, 0x02], &LONG)))
}

/// So many stations, one of which sends parts of 16 pairs: to an
/// address that nobody has, and the others are silent from its ZZ on, or to all.
fn sender(name: &'static str, stations: usize, target: u8) -> Load {
    let masters = masters();
    let seated = masters.len().min(stations);
    let mut file = File::new(name, &masters[..seated], &SLAVES[..stations - seated]);
    file.fill(&full(&masters[..1], |_| ([masters[0], target, 0x50, 0x02], &LONG)))
}

const SLAVES: [u8; 7] = [0x50, 0x51, 0x52, 0x53, 0x54, 0x55, 0x56];
const NOBODY: u8 = 0x60;
const BROADCAST: u8 = 0xFE;
/// Data whose every byte is two symbols on the wire.
const LONG: [u8; 16] = [0xA9; 16];

/// Four telegrams for each of the masters.
fn full<'a>(
    masters: &[u8],
    telegram: impl Fn(usize) -> ([u8; 4], &'a [u8]),
) -> Vec<([u8; 4], &'a [u8])> {
    (0..4 * masters.len()).map(|turn| telegram(turn / 4)).collect()
}

/// A scenario as it grows, and the bus that it makes.
struct File {
    name: &'static str,
    scenario: Vec<u8>,
    bus: Bus,
}

impl File {
    fn new(name: &'static str, masters: &[u8], slaves: &[u8]) -> File {
        let mut file = File { name, scenario: Vec::new(), bus: Bus::new() };
        for &address in masters {
            scenario::write(&mut file.scenario, &Op::Master(address));
            file.bus.attach_master(address).expect("25 masters fit");
        }
        for &address in slaves {
            scenario::write(&mut file.scenario, &Op::Slave(address));
            file.bus.attach_slave(address).expect("32 stations fit");
        }
        file
    }

    /// Queues these telegrams and runs until all are gone, as often as a file
    /// holds it.
    fn fill(&mut self, telegrams: &[([u8; 4], &[u8])]) -> Load {
        let mut slots = 0;
        loop {
            let mut round = Vec::new();
            for &(head, data) in telegrams {
                scenario::write(&mut round, &Op::Queue { head, data });
                self.bus.queue(head, data).expect("the queue is empty");
            }
            let begin = self.bus.slot_number();
            while self.bus.table().waiting() != 0 {
                self.bus.run(1);
                self.bus.forget_events();
            }
            let run = self.bus.slot_number() - begin;
            scenario::write(&mut round, &Op::Run(run.try_into().expect("a round is a run")));
            if self.scenario.len() + round.len() > MAX_BYTES {
                let scenario = std::mem::take(&mut self.scenario);
                return Load { name: self.name, scenario, slots };
            }
            self.scenario.extend(round);
            slots += run;
        }
    }
}

/// The longest run that a file can ask for, with nobody there.
fn rest() -> Load {
    let mut scenario = Vec::new();
    let runs = MAX_BYTES / 5;
    for _ in 0..runs {
        scenario::write(&mut scenario, &Op::Run(u16::MAX));
    }
    Load { name: "rest", scenario, slots: runs as u32 * u16::MAX as u32 }
}

#[cfg(test)]
mod tests {
    use super::*;
    use crate::bench;
    use crate::display;

    #[test]
    fn asked_loads_have_as_many_lines_as_they_say() {
        for load in &asked()[1..] {
            assert!(load.scenario.len() <= MAX_BYTES);
            let printed = String::from_utf8(display::run(&load.scenario).0).unwrap();
            assert_eq!(printed.lines().count(), load.slots as usize, "{}", load.name);
            let next = printed.lines().filter(|line| *line == "1 next 00").count();
            assert!(next > load.slots as usize - 40, "{}", load.name);
        }
    }

    #[test]
    fn loads_are_good_form_and_as_long_as_they_say() {
        for load in all() {
            assert!(load.scenario.len() <= MAX_BYTES);
            let printed = String::from_utf8(bench::run(&load.scenario).0).unwrap();
            let end = format!("end {}", load.slots);
            assert_eq!(printed.lines().last(), Some(end.as_str()), "{}", load.name);
            assert!(!printed.contains("refused"));
            assert_eq!(printed.contains("failed"), load.name.starts_with("1 of"), "{}", load.name);
        }
    }
}
