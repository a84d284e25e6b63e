//! Scenarios for the display. What it shows changes at a SYN and goes out with
//! the slot after it, so the fields are many and short there.

use super::aimed::{self, Plan};
use super::draft::Draft;
use crate::scenario::Op;
use crate::transfer::Stage;
use crate::wire::{BROADCAST, SYN};

pub fn fill(draft: &mut Draft) {
    attach(draft);
    let mut plan = Plan::new();
    for _ in 0..draft.random.between(1, 12) {
        short_telegram(draft);
    }
    for _ in 0..draft.random.between(20, 200) {
        if draft.bus.after_syn() {
            after_syn(draft);
        } else if draft.random.percent(25) {
            aimed::step(draft, &mut plan);
        } else {
            on_to_syn(draft);
        }
    }
}

/// Many masters more often than few.
fn attach(draft: &mut Draft) {
    if draft.random.percent(30) {
        return draft.attach_stations();
    }
    let most = draft.random.pick(&[4, 8, 20, 60]);
    for _ in 0..draft.random.between(2, most) {
        let address = draft.any_master();
        draft.attach_master(address);
        if draft.random.percent(10) {
            draft.attach_anything();
        }
    }
}

/// Mostly to nobody in particular, so that the wire is soon free again.
fn short_telegram(draft: &mut Draft) {
    let source = draft.attached_master();
    let target = if draft.random.percent(70) { BROADCAST } else { draft.target() };
    draft.put(Op::Queue { head: [source, target, 0x05, 0x02], data: &[] });
}

/// Calls before the slot for addresses, then that slot.
fn after_syn(draft: &mut Draft) {
    for _ in 0..draft.random.pick(&[0, 0, 1, 1, 2, 4]) {
        match draft.random.below(20) {
            0..=13 => short_telegram(draft),
            14..=15 => draft.reply_something(),
            16 => draft.run(0),
            17 => draft.attach_anything(),
            _ => draft.call(),
        }
    }
    let symbol = match draft.random.below(100) {
        0..=59 => return draft.run(1),
        60..=67 => return several_slots(draft),
        68..=73 => return draft.put(Op::Quiet),
        74..=81 => SYN,
        82..=87 => draft.attached_master(),
        88..=93 => draft.near_master(),
        _ => draft.noise(),
    };
    draft.heard(symbol);
}

fn several_slots(draft: &mut Draft) {
    let slots = draft.random.between(2, 12);
    draft.run(slots);
}

/// Towards the next SYN, or there at once by a disturbance.
fn on_to_syn(draft: &mut Draft) {
    let transfer = draft.bus.transfer();
    let left = (transfer.part.symbols().len() - transfer.part_sent) as u32;
    let (stage, owned) = (transfer.stage, transfer.owner.is_some());
    match draft.random.below(100) {
        0..=9 => short_telegram(draft),
        10..=19 => draft.heard(SYN),
        20..=24 => draft.put(Op::Quiet),
        25..=27 => {
            let symbol = draft.noise();
            draft.heard(symbol);
        }
        28..=40 => draft.run(1),
        _ if stage == Stage::Part && owned => draft.run(left),
        _ if stage == Stage::Release => draft.run(1),
        _ => aimed::run_to_syn(draft),
    }
}
