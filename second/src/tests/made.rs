//! What must hold for every made scenario.

use crate::bench;
use crate::bus::Bus;
use crate::compare::{coverage, log_coverage};
use crate::event::{Event, Failure, Word};
use crate::log::LENGTHS;
use crate::maker;
use crate::scenario::{self, Op};
use crate::transfer::Stage;
use crate::wire::ESC;
use crate::wirelog;

#[test]
fn a_seed_gives_one_scenario() {
    assert_eq!(maker::make(7), maker::make(7));
    assert_ne!(maker::make(7), maker::make(8));
}

/// Runs in one piece and slot by slot print the same: the shortcuts for quiet
/// slots and for a bus at rest change nothing.
#[test]
fn shortcuts_change_nothing() {
    for seed in 0..3000 {
        let whole = maker::make(seed);
        let Ok(ops) = scenario::parse(&whole) else { continue };
        let mut lines = bench::Bench::new();
        for op in ops {
            match op {
                Op::Run(count) => (0..count).for_each(|_| lines.apply(&Op::Run(1))),
                other => lines.apply(&other),
            }
        }
        assert_eq!(bench::run(&whole).0, lines.finish().0, "seed {seed}");
    }
}

/// A slot heard as what is sent anyway is no disturbance.
#[test]
fn hearing_what_is_sent_changes_nothing() {
    for seed in 0..1000 {
        let whole = maker::make(seed);
        let Ok(ops) = scenario::parse(&whole) else { continue };
        let mut lines = bench::Bench::new();
        for op in ops {
            let Op::Run(count) = op else {
                lines.apply(&op);
                continue;
            };
            for _ in 0..count {
                let told = lines.bus.clone().sent().map_or(Op::Quiet, Op::Heard);
                lines.apply(&told);
            }
        }
        assert_eq!(bench::run(&whole).0, lines.finish().0, "seed {seed}");
    }
}

/// The events of a scenario with slot number 0 in slot `ahead`.
fn events_with_a_wrap(ops: &[Op], ahead: u32) -> Vec<Event> {
    let mut bus = Bus::new();
    bus.set_slot_number(0u32.wrapping_sub(ahead));
    let mut events = Vec::new();
    for op in ops {
        let _ = bench::operate(&mut bus, op);
        events.extend_from_slice(bus.events());
        bus.forget_events();
    }
    events
}

/// What 02 says, by subtraction: in the slots from owns to free the slots since
/// owns, in all others 0.
#[test]
fn elapsed_follows_from_the_owns_and_free_lines() {
    for seed in 0..3000 {
        let whole = maker::make(seed);
        let Ok(ops) = scenario::parse(&whole) else { continue };
        let events = events_with_a_wrap(&ops, seed as u32 % 500);
        let mut owns = None;
        for of_slot in events.chunk_by(|one, next| one.slot == next.slot) {
            let slot = of_slot[0].slot;
            if of_slot.iter().any(|event| matches!(event.word, Word::Owns)) {
                owns = Some(slot);
            }
            let wanted = owns.map_or(0, |owns| slot.wrapping_sub(owns));
            assert!(of_slot.iter().all(|event| event.elapsed() == wanted), "seed {seed} {slot}");
            if of_slot.iter().any(|event| matches!(event.word, Word::Free(_))) {
                owns = None;
            }
        }
    }
}

/// One slot and what is heard in it.
fn pass_slot(bus: &mut Bus, op: &Op) -> Option<u8> {
    let heard = match *op {
        Op::Heard(symbol) => Some(symbol),
        Op::Quiet => None,
        _ => bus.sent(),
    };
    bus.run_disturbed(heard);
    heard
}

/// The other way to the numbers of a broken pair: counting what is heard from
/// the answer's first symbol on.
#[test]
fn numbers_follow_from_the_symbols_heard() {
    for seed in 0..1000 {
        let whole = maker::make(seed);
        let Ok(ops) = scenario::parse(&whole) else { continue };
        let mut bus = Bus::new();
        let mut answer = Vec::new();
        for op in ops {
            let slots = match op {
                Op::Run(count) => count,
                Op::Heard(_) | Op::Quiet => 1,
                _ => {
                    let _ = bench::operate(&mut bus, &op);
                    0
                }
            };
            for _ in 0..slots {
                let in_answer = bus.transfer().stage == Stage::Answer;
                answer.extend(pass_slot(&mut bus, &op));
                bus.events().iter().for_each(|event| check_numbers(event, &answer));
                bus.forget_events();
                if !in_answer {
                    answer.clear();
                }
            }
        }
    }
}

fn check_numbers(event: &Event, answer: &[u8]) {
    if let Word::Failed(_, Failure::BrokenPair(pair)) = event.word {
        assert!(answer.ends_with(&[ESC, pair.symbol]), "slot {}", event.slot);
        assert_eq!(answer.len(), pair.position as usize + 2, "slot {}", event.slot);
    }
}

#[test]
fn maker_reaches_everything() {
    let total = coverage(10_000, 1);
    assert_eq!(total.missing(), Vec::<&str>::new());
    assert_eq!(total.missing_positions(), Vec::<String>::new());
    assert_eq!(log_coverage(10_000, 1).missing(), Vec::<&str>::new());
}

/// A log of 65,536 bytes holds all records of a scenario that is not extreme;
/// none of a scenario of bad form.
fn all_records(scenario: &[u8]) -> Option<String> {
    scenario::parse(scenario).ok()?;
    let fits = wirelog::sizes(scenario).iter().sum::<usize>() <= 65_536;
    fits.then(|| String::from_utf8(wirelog::run(65_536, scenario).0).unwrap())
}

/// The other sentence of 02: the longest run of latest records that fits.
#[test]
fn held_is_the_longest_run_of_latest_that_fits() {
    for seed in 0..3000 {
        let (whole, text) = maker::make_log(seed);
        let length = wirelog::length(&text).unwrap();
        if !LENGTHS.contains(&length) {
            continue;
        }
        let Some(all) = all_records(&whole) else { continue };
        let size = |line: &str| (line.len() as u64 + 1) / 3;
        let lines: Vec<&str> = all.lines().collect();
        let fits =
            |from: &usize| lines[*from..].iter().map(|line| size(line)).sum::<u64>() <= length;
        let first = (0..=lines.len()).find(fits).unwrap();
        let held: String = lines[first..].iter().map(|line| format!("{line}\n")).collect();
        let printed = wirelog::run(length, &whole).0;
        assert_eq!(String::from_utf8(printed).unwrap(), held, "seed {seed}");
    }
}

/// A line of the bench and its record say the same, but for a broken pair's
/// numbers, which the record alone has.
#[test]
fn records_are_those_of_the_bench_lines() {
    for seed in 0..1000 {
        let whole = maker::make(seed);
        let Some(records) = all_records(&whole) else { continue };
        let printed = String::from_utf8(bench::run(&whole).0).unwrap();
        let lines = printed.lines().filter(|line| line.as_bytes()[0].is_ascii_digit());
        let wanted: Vec<String> = lines.map(record_of).collect();
        let bare: Vec<String> = records.lines().map(without_numbers).collect();
        assert_eq!(bare, wanted, "seed {seed}");
    }
}

/// Only a failed 5 has them.
fn without_numbers(record: &str) -> String {
    match record.strip_prefix("03 00 08") {
        Some(value) => {
            let (bare, numbers) = value.split_at(value.len() - " 01 05".len());
            assert!(bare.ends_with(" 05"), "{record} {numbers}");
            format!("03 00 06{bare}")
        }
        None => record.to_string(),
    }
}

fn hex(word: &str) -> u8 {
    u8::from_str_radix(word, 16).unwrap()
}

/// From the text of a line to the text of its record.
fn record_of(line: &str) -> String {
    let words: Vec<&str> = line.split(' ').collect();
    let slot: u32 = words[0].parse().unwrap();
    let names = ["owns", "taken", "failed", "free", "given", "answer"];
    let tag = names.iter().position(|name| *name == words[2]).unwrap() + 1;
    let mut value = slot.to_be_bytes().to_vec();
    value.push(hex(words[1]));
    match words[2..] {
        ["free", elapsed] => value.extend(elapsed.parse::<u32>().unwrap().to_be_bytes()),
        ref others => value.extend(others[1..].iter().map(|word| hex(word))),
    }
    let mut bytes = vec![tag as u8, 0, value.len() as u8];
    bytes.extend(value);
    let text: Vec<String> = bytes.iter().map(|byte| format!("{byte:02X}")).collect();
    text.join(" ")
}
