//! The end of the file: most stay as they are, a few are damaged in form or
//! blown up to the limit of length and beyond.

use super::draft::Draft;
use crate::scenario::MAX_BYTES;

/// Kept rare, because a file of bad form runs nothing.
pub fn ruin(mut draft: Draft) -> Vec<u8> {
    match draft.random.below(1000) {
        0..=2 => blow_up(&mut draft),
        3..=29 => append_bad_field(&mut draft),
        30..=34 => cut(&mut draft),
        35..=39 => change_a_byte(&mut draft),
        _ => {}
    }
    draft.bytes
}

/// Around the limit: exactly at it the file is of good form.
fn blow_up(draft: &mut Draft) {
    let size = MAX_BYTES + draft.random.below(3) as usize;
    while draft.bytes.len() < size {
        let missing = size - draft.bytes.len();
        // Fields of three and four bytes make up any length from 6 on.
        if missing.is_multiple_of(3) {
            draft.bytes.extend_from_slice(&[0x07, 0, 0]);
        } else {
            let symbol = draft.noise();
            draft.bytes.extend_from_slice(&[0x06, 0, 1, symbol]);
        }
    }
}

fn append_bad_field(draft: &mut Draft) {
    let byte = draft.random.byte();
    let bad: &[u8] = match draft.random.below(14) {
        0 => &[0x00, 0, 0],
        1 => &[0x08, 0, 1, byte],
        2 => &[0x01, 0, 2, 0x10, 0x11],
        3 => &[0x02, 0, 0],
        4 => &[0x03, 0, 2, 0x08, 0x50],
        5 => &[0x04, 0, 3, 0x10, 0x08, 0x50],
        6 => &[0x05, 0, 1, byte],
        7 => &[0x05, 0, 3, 0, 0, byte],
        8 => &[0x06, 0, 2, byte, byte],
        9 => &[0x07, 0, 1, byte],
        10 => &[0x06],
        11 => &[0x05, 0],
        12 => &[0x04, 0, 9, 0x10, 0x08, 0x50, 0x02],
        _ => &[0xFF, 0, 0],
    };
    let bad = bad.to_vec();
    draft.bytes.extend_from_slice(&bad);
    if draft.random.percent(30) {
        draft.bytes.extend_from_slice(&[0x05, 0, 2, 0, 20]);
    }
}

fn cut(draft: &mut Draft) {
    let keep = draft.random.below(draft.bytes.len() as u32 + 1) as usize;
    draft.bytes.truncate(keep);
}

fn change_a_byte(draft: &mut Draft) {
    if draft.bytes.is_empty() {
        return;
    }
    let place = draft.random.below(draft.bytes.len() as u32) as usize;
    draft.bytes[place] = draft.random.byte();
}
