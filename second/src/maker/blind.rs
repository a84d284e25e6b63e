//! Scenarios that do not look at the bus.

use super::draft::Draft;
use crate::scenario::Op;
use crate::wire::{is_master, spelled, ACK, BROADCAST, NAK, SYN};

/// A foreign device may send more than 16, and more than fits a wire buffer.
const FOREIGN_DATA: usize = 18;

pub fn fill(draft: &mut Draft) {
    for _ in 0..draft.random.between(3, 60) {
        match draft.random.below(100) {
            0..=39 => draft.call(),
            40..=64 => run_some(draft),
            65..=79 => disturb(draft),
            _ => foreign_telegram(draft),
        }
    }
    let last = draft.random.between(0, 80);
    draft.run(last);
}

fn run_some(draft: &mut Draft) {
    let count = match draft.random.below(100) {
        0..=29 => draft.random.between(0, 4),
        30..=69 => draft.random.between(5, 40),
        70..=96 => draft.random.between(40, 400),
        _ => draft.random.between(400, 65_535),
    };
    draft.run(count);
}

fn disturb(draft: &mut Draft) {
    for _ in 0..draft.random.between(1, 3) {
        if draft.random.percent(30) {
            draft.put(Op::Quiet);
        } else {
            let symbol = draft.noise();
            draft.heard(symbol);
        }
    }
}

/// A telegram no attached master sends, heard symbol by symbol, with its
/// acknowledgement and answer left to chance.
fn foreign_telegram(draft: &mut Draft) {
    if draft.random.percent(90) {
        draft.heard(SYN);
    }
    let source = if draft.random.percent(94) { draft.any_master() } else { draft.near_master() };
    let target = draft.target();
    let [pb, sb] = draft.command();
    let part = foreign_part(draft, &[source, target, pb, sb]);
    spell(draft, &part);
    if target == BROADCAST {
        return;
    }
    if acknowledge(draft) == Some(NAK) {
        spell(draft, &part);
        acknowledge(draft);
    }
    if !is_master(target) {
        foreign_answer(draft);
    }
}

/// A part or, with no head, an answer.
fn foreign_part(draft: &mut Draft, head: &[u8]) -> Vec<u8> {
    let mut data = draft.data_behind(head);
    data.truncate(FOREIGN_DATA);
    spelled(head, &data)
}

/// The symbols of a part, now and then damaged or with quiet between them.
fn spell(draft: &mut Draft, symbols: &[u8]) {
    let clean = draft.random.percent(60);
    for &symbol in symbols {
        if !clean && draft.random.percent(4) {
            draft.put(Op::Quiet);
        }
        let damaged = !clean && draft.random.percent(4);
        let heard = if damaged { draft.noise() } else { symbol };
        draft.heard(heard);
    }
}

/// One slot for the acknowledgement; the symbol given, if one was.
fn acknowledge(draft: &mut Draft) -> Option<u8> {
    let symbol = match draft.random.below(10) {
        0..=4 => {
            draft.run(1);
            return None;
        }
        5..=6 => ACK,
        7..=8 => NAK,
        _ => draft.noise(),
    };
    draft.heard(symbol);
    Some(symbol)
}

fn foreign_answer(draft: &mut Draft) {
    if draft.random.percent(60) {
        let count = draft.random.between(1, 12);
        draft.run(count);
    } else {
        let answer = foreign_part(draft, &[]);
        spell(draft, &answer);
    }
    if acknowledge(draft) == Some(NAK) {
        let count = draft.random.between(1, 12);
        draft.run(count);
        acknowledge(draft);
    }
}
