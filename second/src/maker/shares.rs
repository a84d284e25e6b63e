//! Blocks of shares: many that make 200, and those that nearly do.

use crate::random::Random;

pub fn block(random: &mut Random) -> Vec<u8> {
    let length = random.below(11) as usize;
    let mut codes = match random.below(10) {
        0 => (0..length).map(|_| random.byte()).collect(),
        1 => adding_up(random, length, 100),
        2 => adding_up(random, length, 456),
        3 => beginning_well(random),
        _ => adding_up(random, length, 200),
    };
    match random.below(20) {
        0..=2 => put(&mut codes, random, &[0xFF]),
        3..=4 => put(&mut codes, random, &[0xC9, 0xFE]),
        5 => {
            put(&mut codes, random, &[0xFF]);
            put(&mut codes, random, &[0xC9, 0xE0, 0xFE]);
        }
        6 => nudge(&mut codes, random),
        // Beside shares that make the sum, one more.
        7..=8 => insert(&mut codes, random),
        _ => {}
    }
    codes
}

/// So many shares with this sum, if it can be; else the last is 200.
fn adding_up(random: &mut Random, length: usize, sum: u32) -> Vec<u8> {
    let mut codes = Vec::new();
    let mut rest = sum;
    for left in (0..length as u32).rev() {
        // What the later shares cannot hold has to be in this one.
        let least = rest.saturating_sub(200 * left).min(200);
        let code = if left == 0 { rest.min(200) } else { random.between(least, rest.min(200)) };
        codes.push(code as u8);
        rest -= code;
    }
    codes
}

/// Eight that make 200, and then some more that add nothing.
fn beginning_well(random: &mut Random) -> Vec<u8> {
    let mut codes = adding_up(random, 8, 200);
    codes.resize(random.pick(&[9, 10, 16, 256, 264]), 0);
    codes
}

fn put(codes: &mut [u8], random: &mut Random, from: &[u8]) {
    if !codes.is_empty() {
        codes[random.below(codes.len() as u32) as usize] = random.pick(from);
    }
}

fn insert(codes: &mut Vec<u8>, random: &mut Random) {
    let place = random.below(codes.len() as u32 + 1) as usize;
    codes.insert(place, random.pick(&[0xFF, 0xFF, 0xC9, 0xFE, 0x00]));
}

fn nudge(codes: &mut [u8], random: &mut Random) {
    if let Some(first) = codes.first_mut() {
        *first = first.wrapping_add(1).wrapping_sub(2 * random.below(2) as u8);
    }
}
