//! Scenarios for the counts: many masters, telegrams to all kinds of addresses,
//! some pairs again and again, often just enough of them to fill the table.

use super::aimed::{self, Plan};
use super::draft::Draft;
use crate::recount::RECORDS;
use crate::scenario::Op;
use crate::wire::BROADCAST;

/// Few masters and much disturbance may keep a scenario from its aim.
const ROUNDS: u32 = 40;

pub fn fill(draft: &mut Draft) {
    attach(draft);
    if draft.random.percent(2) {
        one_pair_often(draft);
    }
    let some = draft.random.between(1, 60) as usize;
    let many = draft.random.between(66, 120) as usize;
    let aim = draft.random.pick(&[some, some, RECORDS, RECORDS + 1, RECORDS + 2, many]);
    let mut plan = Plan::new();
    for _ in 0..ROUNDS {
        if draft.freed.len() >= aim {
            break;
        }
        new_pairs(draft, aim);
        carry_on(draft, &mut plan);
    }
    if draft.random.percent(50) {
        again(draft, &mut plan);
    }
}

fn attach(draft: &mut Draft) {
    if draft.random.percent(10) {
        return draft.attach_stations();
    }
    for _ in 0..draft.random.pick(&[3, 10, 30, 60]) {
        let address = draft.any_master();
        draft.attach_master(address);
    }
    for _ in 0..draft.random.between(0, 7) {
        draft.attach_some_slave();
    }
}

/// More broadcasts than a byte counts, from SYN to SYN; then some that fail.
fn one_pair_often(draft: &mut Draft) {
    let source = draft.attached_master();
    let broadcast = Op::Queue { head: [source, BROADCAST, 0x05, 0x02], data: &[] };
    draft.run(10);
    for _ in 0..draft.random.between(250, 280) {
        draft.put(broadcast);
        draft.run(7);
    }
    for _ in 0..draft.random.between(0, 280) {
        draft.put(broadcast);
        draft.run(2);
        draft.heard(0xAA);
    }
}

/// No more than the aim still needs, with those that wait already.
fn new_pairs(draft: &mut Draft, aim: usize) {
    let table = draft.bus.table();
    let held: usize = (0..table.count()).map(|station| table.telegrams(station) as usize).sum();
    let needed = aim.saturating_sub(draft.freed.len() + held) as u32;
    for _ in 0..draft.random.between(0, needed) {
        let (source, target) = (draft.attached_master(), any_target(draft));
        telegram(draft, source, target);
    }
}

/// Mostly short, so that many fit into a scenario.
fn telegram(draft: &mut Draft, source: u8, target: u8) {
    let [pb, sb] = draft.command();
    let head = [source, target, pb, sb];
    let data = if draft.random.percent(15) { draft.data_behind(&head) } else { Vec::new() };
    draft.put(Op::Queue { head, data: &data });
}

/// Attached or not.
fn any_target(draft: &mut Draft) -> u8 {
    match draft.random.below(100) {
        0..=14 => BROADCAST,
        15..=44 => draft.attached_slave(),
        45..=64 => draft.any_master(),
        65..=74 => draft.attached_master(),
        _ => draft.random.byte(),
    }
}

/// Pairs that have been counted once more, with a record or in others.
fn again(draft: &mut Draft, plan: &mut Plan) {
    let pairs: Vec<[u8; 2]> = draft.freed.iter().copied().collect();
    for _ in 0..draft.random.between(1, 30) {
        if !pairs.is_empty() {
            let [source, target] = draft.random.pick(&pairs);
            telegram(draft, source, target);
        }
    }
    carry_on(draft, plan);
}

/// Undisturbed for many transfers, or disturbed wherever they stand.
fn carry_on(draft: &mut Draft, plan: &mut Plan) {
    if draft.random.percent(50) {
        let slots = draft.random.between(1, 900);
        return draft.run(slots);
    }
    for _ in 0..draft.random.between(5, 120) {
        aimed::step(draft, plan);
    }
}
