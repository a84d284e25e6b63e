//! Scenarios that look at the bus before every field: a random walk through
//! transfers that prefers what carries a transfer on, and disturbs it where
//! it stands.

use super::broken_pair::{break_pair, broken_answer};
use super::draft::Draft;
use crate::intake::Intake;
use crate::scenario::Op;
use crate::transfer::Stage;
use crate::wire::{Wire, ACK, BROADCAST, ESC, NAK, SYN};

/// The addresses a foreign part is being spelled with.
pub struct Plan {
    source: u8,
    target: u8,
}

impl Plan {
    pub fn new() -> Plan {
        Plan { source: 0x10, target: BROADCAST }
    }
}

pub fn fill(draft: &mut Draft) {
    let mut plan = Plan::new();
    for _ in 0..draft.random.between(20, 260) {
        let idle = draft.bus.table().waiting() == 0;
        if draft.random.percent(if idle { 35 } else { 8 }) {
            draft.call();
        }
        step(draft, &mut plan);
    }
    let last = draft.random.between(0, 60);
    draft.run(last);
}

pub fn step(draft: &mut Draft, plan: &mut Plan) {
    let bus = &draft.bus;
    if bus.contenders() != 0 {
        return contest(draft);
    }
    let transfer = bus.transfer();
    match transfer.stage {
        Stage::Silence => silence(draft),
        Stage::Part if transfer.owner.is_some() => owners_part(draft, plan),
        Stage::Part => open_part(draft, plan),
        Stage::PartVerdict | Stage::AnswerVerdict => verdict(draft),
        Stage::Answer if transfer.slave.is_some() => slaves_answer(draft),
        Stage::Answer => foreign_answer(draft),
        Stage::Release => release(draft),
    }
}

pub fn run_to_syn(draft: &mut Draft) {
    let slots = draft.bus.slots_to_syn();
    if draft.random.percent(90) {
        return draft.run(slots);
    }
    draft.run(slots - 1);
    match draft.random.below(3) {
        0 => draft.put(Op::Quiet),
        1 => draft.call(),
        _ => {
            let symbol = draft.noise();
            draft.heard(symbol);
        }
    }
}

/// The slot after SYN, in which masters send their addresses.
fn contest(draft: &mut Draft) {
    let symbol = match draft.random.below(100) {
        0..=67 => return draft.run(1),
        68..=79 => draft.attached_master(),
        80..=85 => draft.any_master(),
        86..=91 => draft.near_master(),
        92..=94 => return draft.put(Op::Quiet),
        95..=97 => SYN,
        _ => draft.noise(),
    };
    draft.heard(symbol);
}

fn silence(draft: &mut Draft) {
    match draft.random.below(10) {
        0..=6 => run_to_syn(draft),
        7 => draft.heard(SYN),
        8 => {
            let target = draft.target();
            ghost_telegram(draft, target);
        }
        _ => {
            let symbol = draft.noise();
            draft.heard(symbol);
        }
    }
}

/// A sound telegram without a SYN before it: whoever ought to be silent and
/// is not gives itself away.
fn ghost_telegram(draft: &mut Draft, target: u8) {
    let head = [draft.any_master(), target, 0x05, 0x02];
    let part = Wire::master_part(head, &[]);
    for &symbol in part.symbols() {
        draft.heard(symbol);
    }
    if draft.random.percent(50) {
        draft.heard(ACK);
    }
    draft.run(2);
}

fn owners_part(draft: &mut Draft, plan: &mut Plan) {
    let transfer = draft.bus.transfer();
    let left = (transfer.part.symbols().len() - transfer.part_sent) as u32;
    match draft.random.below(100) {
        0..=69 => draft.run(left),
        70..=84 => {
            let some = draft.random.between(1, left);
            draft.run(some);
        }
        85..=88 => draft.put(Op::Quiet),
        89..=90 => draft.heard(SYN),
        _ => {
            // The rest of the part will be spelled by open_part.
            plan.target = draft.target();
            spell_on(draft, plan);
        }
    }
}

/// No owner: either nothing has been heard since SYN, or a foreign telegram
/// or the word of a collision is on the wire.
fn open_part(draft: &mut Draft, plan: &mut Plan) {
    let bus = &draft.bus;
    let untouched = bus.heard_part().untouched();
    let repeated = bus.transfer().part_repeated;
    let idle = bus.table().waiting() == 0;
    if untouched && !repeated {
        if draft.random.percent(if idle { 30 } else { 65 }) {
            return run_to_syn(draft);
        }
        plan.source = if draft.random.percent(95) { draft.any_master() } else { draft.noise() };
        plan.target = draft.target();
    } else if untouched {
        change_plan(draft, plan);
    }
    if bus_waits_after_collision(draft) && draft.random.percent(60) {
        return run_to_syn(draft);
    }
    match draft.random.below(100) {
        0..=91 => spell_on(draft, plan),
        92..=93 => draft.put(Op::Quiet),
        94..=95 => draft.heard(SYN),
        96..=97 => run_to_syn(draft),
        _ => {
            let symbol = draft.noise();
            draft.heard(symbol);
        }
    }
}

/// The repetition of a part may come with other addresses.
fn change_plan(draft: &mut Draft, plan: &mut Plan) {
    match draft.random.below(100) {
        0..=7 => plan.source = draft.any_master(),
        8..=13 => plan.source = draft.near_master(),
        14..=27 => plan.target = draft.target(),
        28..=31 => plan.target = BROADCAST,
        _ => {}
    }
}

fn bus_waits_after_collision(draft: &Draft) -> bool {
    let bus = &draft.bus;
    bus.symbols_since_syn() == 1 && bus.table().waiting() != 0
}

/// Now and then a last data symbol that makes the check symbol AA or A9, or
/// one that looks like an acknowledgement.
fn steered(draft: &mut Draft, part: &Intake) -> Option<u8> {
    let wanted = draft.random.pick(&[SYN, SYN, ESC, NAK, ACK]);
    part.steer(wanted).filter(|_| draft.random.percent(40))
}

/// One symbol that carries the master part on, or spoils it on purpose.
fn spell_on(draft: &mut Draft, plan: &Plan) {
    let part = *draft.bus.heard_part();
    if part.at_count() && draft.random.percent(8) {
        return spell_over_long(draft, plan);
    }
    let filler = steered(draft, &part).unwrap_or_else(|| part_filler(draft));
    let sound = part.next_sound(plan.source, plan.target, filler);
    let symbol = if part.check_is_syn() && draft.random.percent(30) {
        SYN
    } else if part.at_check() && draft.random.percent(25) {
        sound ^ 0x10
    } else if part.in_escape() && draft.random.percent(10) {
        draft.random.pick(&[SYN, ESC, 0x02, 0xFF])
    } else {
        sound
    };
    draft.heard(symbol);
}

fn part_filler(draft: &mut Draft) -> u8 {
    match draft.random.below(100) {
        0..=69 => {
            let [pb, sb] = draft.command();
            if draft.random.percent(50) {
                pb
            } else {
                sb
            }
        }
        70..=74 => ESC,
        _ => draft.random.byte(),
    }
}

/// Often followed by what looks like a repetition to a reader that thinks it
/// has refused the part.
fn spell_over_long(draft: &mut Draft, plan: &Plan) {
    let count = over_long(draft);
    draft.heard(count);
    if draft.random.percent(60) {
        return;
    }
    match draft.random.below(3) {
        0 => draft.run(1),
        1 => draft.heard(NAK),
        _ => draft.heard(ACK),
    }
    ghost_telegram(draft, plan.target);
}

fn over_long(draft: &mut Draft) -> u8 {
    if draft.random.percent(40) {
        draft.random.pick(&[0x11, 0x12, ESC, 0xFF])
    } else {
        draft.random.between(0x11, 0xFF) as u8
    }
}

/// Whoever waits goes on waiting, also past the SYNs of the generator: those
/// slots are heard as quiet too.
fn long_quiet(draft: &mut Draft) {
    let syns = if draft.random.percent(80) { 2 } else { 40 };
    let one_by_one = draft.random.percent(50);
    draft.put(Op::Quiet);
    for _ in 0..draft.random.between(1, syns) {
        let slots = draft.bus.slots_to_syn();
        if one_by_one {
            (0..slots).for_each(|_| draft.put(Op::Quiet));
        } else {
            draft.run(slots - 1);
            draft.put(Op::Quiet);
        }
    }
}

/// The acknowledgement slot and the slots after it.
fn verdict(draft: &mut Draft) {
    let due = draft.bus.transfer().ack_due;
    let symbol = match draft.random.below(100) {
        0..=44 if due => return draft.run(1),
        0..=9 => return run_to_syn(draft),
        10..=59 => ACK,
        60..=88 => NAK,
        89..=91 => SYN,
        92..=94 => return draft.put(Op::Quiet),
        95 => return long_quiet(draft),
        _ => draft.noise(),
    };
    draft.heard(symbol);
    change_reply(draft);
}

/// The reply entry changed right before the answer, or before its repetition.
fn change_reply(draft: &mut Draft) {
    let transfer = *draft.bus.transfer();
    if transfer.stage == Stage::Answer && draft.random.percent(25) {
        let [pb, sb] = transfer.heard_part.command();
        draft.reply_to(transfer.heard_part.target(), pb, sb);
    }
}

fn slaves_answer(draft: &mut Draft) {
    // Asking a copy: the answer must not be fixed before its slot begins.
    let mut copy = draft.bus.clone();
    let sent = copy.sent().unwrap_or(0);
    let transfer = copy.transfer();
    let coming = &transfer.reply.symbols()[transfer.reply_sent..];
    let left = coming.len() as u32;
    let at_count = transfer.heard_answer.at_count();
    let to_pair = coming.iter().position(|&symbol| symbol == ESC);
    if let Some(before) = to_pair.filter(|_| draft.random.percent(12)) {
        return break_pair(draft, before as u32);
    }
    let symbol = match draft.random.below(100) {
        0..=54 => return draft.run(left),
        55..=69 => {
            let some = draft.random.between(1, left);
            return draft.run(some);
        }
        70..=74 => return draft.put(Op::Quiet),
        75..=77 => SYN,
        78..=82 => ESC,
        83..=87 if at_count => over_long(draft),
        88..=91 if at_count => return broken_answer(draft),
        83..=89 => sent ^ 0x01,
        90..=95 => sent,
        _ => draft.noise(),
    };
    draft.heard(symbol);
    change_reply(draft);
}

/// The owner waits for an answer that no attached slave gives any more.
fn foreign_answer(draft: &mut Draft) {
    let transfer = draft.bus.transfer();
    let (answer, repeated) = (transfer.heard_answer, transfer.answer_repeated);
    if answer.at_count() && draft.random.percent(if repeated { 30 } else { 12 }) {
        return broken_answer(draft);
    }
    let filler = steered(draft, &answer).unwrap_or_else(|| answer_filler(draft));
    let sound = answer.next_sound(0, 0, filler);
    let symbol = match draft.random.below(100) {
        0..=49 if answer.check_is_syn() => SYN,
        0 => return long_quiet(draft),
        1..=2 => return draft.put(Op::Quiet),
        3..=4 => SYN,
        5..=6 => return run_to_syn(draft),
        7..=16 if answer.at_count() => over_long(draft),
        7..=26 if answer.in_escape() => draft.random.pick(&[SYN, SYN, ESC, 0x02, 0xFF]),
        7..=31 if answer.at_check() => sound ^ 0x10,
        _ => sound,
    };
    draft.heard(symbol);
}

fn answer_filler(draft: &mut Draft) -> u8 {
    match draft.data_byte() {
        SYN | BROADCAST => ESC,
        other => other,
    }
}

fn release(draft: &mut Draft) {
    match draft.random.below(20) {
        0..=15 => draft.run(1),
        16 => draft.put(Op::Quiet),
        17 => draft.heard(SYN),
        _ => {
            let symbol = draft.noise();
            draft.heard(symbol);
        }
    }
}
