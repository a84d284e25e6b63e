//! Random inputs of the program `values`.

use super::shares;
use crate::dyadic::bits_of;
use crate::every_value::EDGES;
use crate::random::Random;
use crate::scenario::{push_field, MAX_BYTES};
use crate::types::{Type, MISSING, TYPES, WHOLE};

/// Bytes at which a code turns into another case: halves of ten, 200 and 201,
/// missing, and the halves of 8000h and its neighbours.
const CODE_EDGES: [u8; 15] =
    [0x00, 0x01, 0x09, 0x0A, 0x7F, 0x80, 0x81, 0x90, 0x99, 0x9A, 0xA0, 0xC8, 0xC9, 0xFE, 0xFF];

/// The input of a seed; the same bytes every time.
pub fn make(seed: u64) -> Vec<u8> {
    let mut random = Random::new(seed);
    let mut bytes = Vec::new();
    let count = random.below(100);
    (0..count).for_each(|_| push_any(&mut bytes, &mut random));
    match random.below(100) {
        0..=9 => push_bad(&mut bytes, &mut random),
        10 => cut(&mut bytes, &mut random),
        11..=13 => blow_up(&mut bytes, &mut random),
        _ => {}
    }
    bytes
}

fn push_any(out: &mut Vec<u8>, random: &mut Random) {
    let place = random.below(4) as usize;
    match random.below(100) {
        0..=29 => push_field(out, 0x01 + place as u8, &code(random, &TYPES[place]), &[]),
        30..=54 => push_field(out, 0x05, &shares::block(random), &[]),
        _ => push_field(out, 0x11 + place as u8, &value(random, &TYPES[place]), &[]),
    }
}

fn code(random: &mut Random, of: &Type) -> Vec<u8> {
    let right = of.missing.len();
    let length = if random.percent(85) { right } else { random.below(5) as usize };
    if length == right && random.percent(8) {
        return of.missing.to_vec();
    }
    let byte = |random: &mut Random| match random.below(3) {
        0 => random.pick(&CODE_EDGES),
        1 if of.kind == WHOLE => (random.below(10) * 16 + random.below(10)) as u8,
        _ => random.byte(),
    };
    (0..length).map(|_| byte(random)).collect()
}

fn value(random: &mut Random, of: &Type) -> [u8; 5] {
    let kind = match random.below(100) {
        0..=79 => of.kind,
        80..=87 => MISSING,
        88..=94 => random.below(4) as u8,
        _ => random.between(4, 255) as u8,
    };
    let bits = if kind == WHOLE || of.kind == WHOLE && random.percent(70) {
        whole(random)
    } else {
        float(random, of)
    };
    let [a, b, c, d] = bits.to_be_bytes();
    [kind, a, b, c, d]
}

fn whole(random: &mut Random) -> u32 {
    match random.below(10) {
        0..=5 => random.below(100),
        6..=7 => random.between(90, 300),
        // Its low bits alone would be in range.
        8 => random.below(100) | 1 << random.between(7, 31),
        _ => random.next() as u32,
    }
}

/// Mostly what a code stands for, or nearly.
fn float(random: &mut Random, of: &Type) -> u32 {
    let (least, greatest) = (*of.numbers.start(), *of.numbers.end());
    let spread = (greatest - least) as u32;
    let number = least + random.between(0, spread) as i64;
    let exact = bits_of(number, of.halvings);
    match random.below(100) {
        0..=44 => exact,
        45..=54 => exact.wrapping_add(1).wrapping_sub(random.below(2) * 2),
        55..=61 => bits_of(2 * number + 1, of.halvings + 1),
        // Just past the range, or as far past as it is wide.
        62..=66 => bits_of(greatest + random.between(1, 3) as i64, of.halvings),
        67..=71 => bits_of(least - random.between(1, 3) as i64, of.halvings),
        72..=76 => bits_of(number + spread as i64 + 1, of.halvings),
        77..=80 => 1 << 31,
        81..=90 => random.pick(&EDGES) | random.below(2) << 31,
        // One bit of it turned.
        91..=94 => exact ^ 1 << random.below(32),
        _ => random.next() as u32,
    }
}

fn push_bad(out: &mut Vec<u8>, random: &mut Random) {
    let write = random.between(0x11, 0x14) as u8;
    match random.below(7) {
        0 => push_field(out, random.pick(&[0x00, 0x06, 0x07, 0x10, 0x15, 0x81, 0xFF]), &[], &[]),
        1 => push_field(out, random.pick(&[0x06, 0x10, 0x15]), &[1, 0, 0, 0, 0], &[]),
        2 => push_field(out, write, &[0; 8][..random.pick(&[0, 1, 4, 6, 8])], &[]),
        // 261 is 5 to whoever loses the high byte.
        3 => push_field(out, write, &[0; 261], &[]),
        4 => out.extend_from_slice(&[0x01, 0x00][..random.between(1, 2) as usize]),
        5 => out.extend_from_slice(&[write, 0x00, 0x05, 0x01, 0x00, 0x00, 0x00]),
        _ => out.extend_from_slice(&[random.between(1, 5) as u8, 0x01, 0x00, 0x64, 0x64]),
    }
    if random.percent(50) {
        push_any(out, random);
    }
}

fn cut(out: &mut Vec<u8>, random: &mut Random) {
    let keep = random.below(out.len() as u32 + 1) as usize;
    out.truncate(keep);
}

/// Around the limit, filled up by a block; exactly at it the form is good.
fn blow_up(out: &mut Vec<u8>, random: &mut Random) {
    let size = MAX_BYTES + random.pick(&[0, 0, 1, 2, 5000]);
    if random.percent(50) {
        // Many short fields, so that many lines are printed.
        while out.len() < MAX_BYTES - 400 {
            push_any(out, random);
        }
    }
    let filling = (size - out.len() - 3).min(65_535);
    push_field(out, 0x05, &vec![random.byte(); filling], &[]);
    out.resize(size, 0x00);
}
