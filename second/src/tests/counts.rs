//! Counts by pair. A broadcast takes 11 to 16 with SYN in 17, a part of six
//! symbols to one station 11 to 16 with its acknowledgement in 17.

use super::*;
use crate::bus::Bus;
use crate::compare::count_coverage;
use crate::counts::{self, question, Question};
use crate::event::{Event, Failure, Pair, Role, Tenure, Word};
use crate::maker;
use crate::recount::{count, freed, stopped, with_records, Freed, RECORDS};
use crate::wire::is_master;
use std::collections::VecDeque;

/// Without data.
fn sends(source: u8, target: u8) -> Op<'static> {
    Op::Queue { head: [source, target, 0x50, 2], data: &[] }
}

fn bytes_of(ops: &[Op]) -> Vec<u8> {
    let mut bytes = Vec::new();
    ops.iter().for_each(|op| scenario::write(&mut bytes, op));
    bytes
}

fn counted(args: &[&str], bytes: &[u8]) -> String {
    String::from_utf8(counts::run(question(args).unwrap(), bytes).0).unwrap()
}

/// The records; the line of the others is that of none.
#[track_caller]
fn expect_counts(ops: &[Op], records: &[&str]) {
    let printed = counted(&[], &bytes_of(ops));
    let mut lines: Vec<&str> = printed.lines().collect();
    assert_eq!(lines.pop(), Some("others taken 0 failed 0"));
    assert_eq!(lines, records);
}

#[test]
fn arguments() {
    assert_eq!(question(&[]), Some(Question::All));
    assert_eq!(question(&["10", "08"]), Some(Question::Of([0x10, 0x08])));
    assert_eq!(question(&["fF", "Fe"]), Some(Question::Of([0xFF, 0xFE])));
    assert_eq!(question(&["aa", "A9"]), Some(Question::Of([0xAA, 0xA9])));
    assert_eq!(question(&["10"]), None);
    assert_eq!(question(&["10", "08", "08"]), None);
    for word in ["", "1", "010", "+1", "-1", "0x", " 1", "1 ", "1g", "ä", "10:08", "all"] {
        assert_eq!(question(&[word, "08"]), None, "{word}");
        assert_eq!(question(&["10", word]), None, "{word}");
        assert_eq!(question(&[word]), None, "{word}");
    }
}

#[test]
fn form() {
    assert_eq!(counted(&[], &[]), "others taken 0 failed 0\n");
    assert_eq!(counted(&["10", "08"], &[]), "refused 20\n");
    for args in [&[][..], &["10", "08"]] {
        assert_eq!(counted(args, &[7, 0, 0, 8, 0, 0]), "refused 14 3\n");
        assert_eq!(counted(args, &[7, 0, 0, 7, 0]), "refused 14 3\n");
        assert_eq!(counted(args, &[0; 65_537]), "refused 15 65536\n");
    }
}

#[test]
fn a_transfer_counts_at_its_free_line() {
    // Broadcast, master, slave: the last slot of each is its owner's SYN.
    for (target, slots, line) in [
        (0xFE, 17, "10 FE taken 1 failed 0"),
        (0x30, 18, "10 30 taken 1 failed 0"),
        (0x08, 21, "10 08 taken 1 failed 0"),
    ] {
        let before = [master(0x10), master(0x30), slave(0x08), sends(0x10, target)];
        expect_counts(&[&before[..], &[run(slots - 1)]].concat(), &[]);
        expect_counts(&[&before[..], &[run(slots)]].concat(), &[line]);
        // Quiet in mid-part: failed 1, and free in that slot.
        let failed = line.replace("taken 1 failed 0", "taken 0 failed 1");
        expect_counts(&[&before[..], &[run(13), quiet()]].concat(), &[&failed]);
    }
}

/// Told taken and nothing more: enough for all but slave addresses.
#[test]
fn every_target_without_an_answer() {
    for target in 0..=0xFF {
        if matches!(target, 0x10 | 0x15 | 0xA9 | 0xAA) {
            continue;
        }
        let transfer =
            Freed { pair: [0x10, target], told_taken: true, answered: false, failed: None };
        let no_answer_wanted = is_master(target) || target == 0xFE;
        assert_eq!(transfer.got_through(), no_answer_wanted, "{target:02X}");
        assert!(Freed { answered: true, ..transfer }.got_through());
        assert!(!Freed { told_taken: false, answered: true, ..transfer }.got_through());
        let ops = [master(0x10), heard(0xAA), sends(0x10, target), run(6), heard(0), heard(0xAA)];
        let numbers = if no_answer_wanted { "taken 1 failed 0" } else { "taken 0 failed 1" };
        expect_counts(&ops, &[&format!("10 {target:02X} {numbers}")]);
    }
}

#[test]
fn a_question_is_for_one_pair() {
    let ops = [master(0x10), master(0xF0), sends(0x10, 0xFE), sends(0xF0, 0xFE), run(24)];
    let bytes = bytes_of(&ops);
    assert_eq!(counted(&["10", "fe"], &bytes), "10 FE taken 1 failed 0\n");
    assert_eq!(counted(&["f0", "FE"], &bytes), "F0 FE taken 1 failed 0\n");
    for [source, target] in [["FE", "10"], ["10", "F0"], ["10", "10"], ["FE", "FE"]] {
        assert_eq!(counted(&[source, target], &bytes), "refused 20\n");
    }
}

/// From 1 on, so many different pairs of 10.
fn different(count: u8) -> Vec<Freed> {
    let of =
        |target| Freed { pair: [0x10, target], told_taken: false, answered: false, failed: None };
    (1..=count).map(of).collect()
}

#[test]
fn first_64_pairs_have_records() {
    for count in [0, 1, 63, 64, 65, 200] {
        let records = with_records(&different(count));
        assert_eq!(records.len(), RECORDS.min(count as usize));
        assert!(records.iter().zip(1..).all(|(pair, target)| *pair == [0x10, target]));
    }
    // A pair that comes again has its record already, and no other one then.
    let twice = [different(64), different(66)].concat();
    let records = with_records(&twice);
    assert_eq!(records, with_records(&different(64)));
    assert_eq!(count(&twice, |pair| *pair == [0x10, 64]), [0, 2]);
    assert_eq!(count(&twice, |pair| !records.contains(pair)), [0, 2]);
}

#[test]
fn a_count_stops() {
    assert_eq!(stopped(0), 0);
    assert_eq!(stopped(4_294_967_294), 4_294_967_294);
    assert_eq!(stopped(4_294_967_295), 4_294_967_295);
    assert_eq!(stopped(4_294_967_296), 4_294_967_295);
    assert_eq!(stopped(u64::MAX), 4_294_967_295);
}

/// Only what its own owner was told since the owns line belongs to a transfer.
#[test]
fn looking_back_stops_at_owns() {
    let event = |station, word| Event { slot: 1, tenure: Tenure::Nobodys, station, word };
    let taken = Word::Taken(Role::Slave);
    let events = [
        event(1, taken),
        event(0, Word::Taken(Role::Owner)),
        event(0, Word::Owns),
        event(1, taken),
        event(0, Word::Failed(Role::Owner, Failure::Syn)),
        event(0, Word::Free([0x10, 0x36])),
        event(1, Word::Owns),
        event(1, Word::Taken(Role::Owner)),
        event(0, Word::Failed(Role::Slave, Failure::NotItsOwn)),
        event(1, Word::Free([0x31, 0x10])),
    ];
    let failed = Freed { pair: [0x10, 0x36], told_taken: false, answered: false, failed: Some(4) };
    let through = Freed { pair: [0x31, 0x10], told_taken: true, answered: false, failed: None };
    assert_eq!(freed(&events), [failed, through]);
}

/// A table that is counted up while the scenario runs, with queues of its own
/// that follow the calls alone.
struct Tally {
    queues: [VecDeque<Pair>; 256],
    told: [bool; 2],
    lines: Vec<(Pair, [u32; 2])>,
    others: [u32; 2],
}

impl Tally {
    fn of(ops: &[Op]) -> Tally {
        let queues = std::array::from_fn(|_| VecDeque::new());
        let mut tally = Tally { queues, told: [false; 2], lines: Vec::new(), others: [0; 2] };
        let mut bus = Bus::new();
        for op in ops {
            let done = bench::operate(&mut bus, op);
            if let (Ok(()), Op::Queue { head: [source, target, ..], .. }) = (done, op) {
                tally.queues[*source as usize].push_back([*source, *target]);
            }
            bus.events()
                .iter()
                .for_each(|event| tally.note(bus.table().name(event.station), event));
            bus.forget_events();
        }
        tally
    }

    fn note(&mut self, name: u8, event: &Event) {
        match event.word {
            Word::Owns => self.told = [false; 2],
            Word::Taken(Role::Owner) => self.told[0] = true,
            Word::Answer { .. } => self.told[1] = true,
            Word::Free(_) => self.transfer_of(name),
            _ => {}
        }
    }

    fn transfer_of(&mut self, name: u8) {
        let pair = self.queues[name as usize].pop_front().unwrap();
        let wanted = pair[1] != 0xFE && !is_master(pair[1]);
        let through = self.told[0] && (self.told[1] || !wanted);
        let place = usize::from(!through);
        if !self.lines.iter().any(|line| line.0 == pair) && self.lines.len() < 64 {
            self.lines.push((pair, [0; 2]));
        }
        match self.lines.iter_mut().find(|line| line.0 == pair) {
            Some(line) => line.1[place] += 1,
            None => self.others[place] += 1,
        }
    }

    fn printed(&self) -> String {
        let numbers = |[taken, failed]: [u32; 2]| format!("taken {taken} failed {failed}\n");
        let lines = self.lines.iter().map(|([source, target], counts)| {
            format!("{source:02X} {target:02X} {}", numbers(*counts))
        });
        lines.collect::<String>() + "others " + &numbers(self.others)
    }
}

#[test]
fn recounting_is_counting_up() {
    for seed in 0..1500 {
        let (whole, args) = maker::make_counts(seed);
        let Ok(ops) = scenario::parse(&whole) else { continue };
        let table = Tally::of(&ops).printed();
        assert_eq!(counted(&[], &whole), table, "seed {seed}");
        if let [source, target] = &args[..] {
            let name = format!("{source} {target} ").to_uppercase();
            let line = table.lines().find(|line| line.starts_with(&name)).unwrap_or("refused 20");
            assert_eq!(counted(&[source, target], &whole), format!("{line}\n"), "seed {seed}");
        }
    }
}

#[test]
fn maker_reaches_everything() {
    assert_eq!(count_coverage(1000, 1).missing(), Vec::<&str>::new());
}
