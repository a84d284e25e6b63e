//! The longest telegrams and answers, which chance alone hardly ever makes: all
//! sixteen data bytes and the check symbol go as pairs.

use super::draft::Draft;
use crate::random::Random;
use crate::scenario::Op;
use crate::wire::{spelled, BROADCAST, ESC, MAX_DATA, SYN};

/// Sixteen bytes out of A9 and AA that have one of these as their check symbol
/// behind this head. Each choice of the last eight has a check symbol of its own.
pub fn data(random: &mut Random, head: &[u8]) -> Vec<u8> {
    let pair = [ESC, random.below(2) as u8];
    let first_eight = random.byte() as u16;
    let mut choices = (0..=0xFF).map(|last_eight| out_of_pairs(first_eight | last_eight << 8));
    choices.find(|data| spelled(head, data).ends_with(&pair)).expect("one of 256 has it")
}

fn out_of_pairs(bits: u16) -> Vec<u8> {
    (0..MAX_DATA).map(|place| if bits >> place & 1 == 1 { SYN } else { ESC }).collect()
}

/// One byte too many, then the most there can be, for a queue that is mostly
/// full: 4 comes before 5.
pub fn at_the_limit(draft: &mut Draft, source: u8) {
    let head = [source, BROADCAST, 0x05, 0x02];
    let longest = data(&mut draft.random, &head);
    draft.put(Op::Queue { head, data: &[&longest[..], &[SYN]].concat() });
    draft.put(Op::Queue { head, data: &longest });
}
