//! Broken pairs where an owner reads them.

use super::draft::Draft;
use crate::scenario::Op;
use crate::wire::{ESC, MAX_DATA, NAK, SYN};

/// A slave's own pair, with another second half heard than it sends.
pub fn break_pair(draft: &mut Draft, symbols_before: u32) {
    draft.run(symbols_before + 1);
    let half = wrong_half(draft);
    draft.heard(half);
}

/// Mostly no second half of a pair; AA is a SYN here too.
fn wrong_half(draft: &mut Draft) -> u8 {
    match draft.random.below(100) {
        0..=29 => ESC,
        30..=59 => draft.random.pick(&[0x02, 0x10, 0xA8, 0xFE, NAK]),
        60..=64 => SYN,
        _ => draft.random.between(0x02, 0xFF) as u8,
    }
}

/// An answer up to a broken pair in any place that it can have, with few or
/// many sound pairs before it and quiet slots between the symbols.
pub fn broken_answer(draft: &mut Draft) {
    let any = draft.random.between(0, MAX_DATA as u32);
    let count = draft.random.pick(&[0, 1, 2, MAX_DATA as u32, any, any]);
    let in_data = draft.random.below(count + 1);
    let sound = if draft.random.percent(30) { count } else { in_data };
    let pairs = draft.random.pick(&[0, 30, 60, 95, 100]);
    let pauses = draft.random.pick(&[0, 0, 5, 30]);
    heard_after_quiet(draft, pauses, count as u8);
    for _ in 0..sound {
        let (symbol, half) = sound_byte(draft, pairs);
        heard_after_quiet(draft, pauses, symbol);
        half.into_iter().for_each(|half| heard_after_quiet(draft, pauses, half));
    }
    heard_after_quiet(draft, pauses, ESC);
    let half = wrong_half(draft);
    heard_after_quiet(draft, pauses, half);
}

/// A plain symbol or, so many times in a hundred, a pair.
fn sound_byte(draft: &mut Draft, pairs: u32) -> (u8, Option<u8>) {
    if draft.random.percent(pairs) {
        return (ESC, Some(draft.random.below(2) as u8));
    }
    (draft.random.between(0x00, ESC as u32 - 1) as u8, None)
}

fn heard_after_quiet(draft: &mut Draft, pauses: u32, symbol: u8) {
    while draft.random.percent(pauses) {
        draft.put(Op::Quiet);
    }
    draft.heard(symbol);
}
