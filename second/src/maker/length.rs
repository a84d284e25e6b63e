//! Lengths for the log of a scenario, as a program is given them.

use crate::log::LENGTHS;
use crate::random::Random;

/// Outside the limits. 65600, 4294967360 and 18446744073709551680 are 64 to
/// whoever loses all above 16, 32 or 64 bits.
const OUTSIDE: [&str; 8] = [
    "0",
    "1",
    "63",
    "65537",
    "65600",
    "4294967360",
    "18446744073709551680",
    "100000000000000000000000000000000000000064",
];

/// Mostly so short that records go; the sizes are those of all records.
pub fn length(random: &mut Random, sizes: &[usize]) -> String {
    let length = match random.below(100) {
        0..=4 => return random.pick(&OUTSIDE).to_string(),
        5..=64 => short(random),
        65..=76 => near(random, sizes.iter().sum()),
        77..=84 => at_numbers(random, sizes),
        85..=91 => {
            let latest = random.below(sizes.len() as u32 + 1) as usize;
            near(random, sizes[latest..].iter().sum())
        }
        _ => random.between(*LENGTHS.start() as u32, *LENGTHS.end() as u32) as u64,
    };
    let zeros = if random.percent(3) { "00000" } else { "" };
    format!("{zeros}{length}")
}

fn short(random: &mut Random) -> u64 {
    random.between(*LENGTHS.start() as u32, 400) as u64
}

/// What just fits, one byte less or one more.
fn near(random: &mut Random, size: usize) -> u64 {
    let length = (size as u64 + random.below(3) as u64).saturating_sub(1);
    within_limits(random, length)
}

/// The buffer's end two bytes or one before that of a record of 11: a failed 5
/// with a broken pair's numbers, or an answer with one data byte.
fn at_numbers(random: &mut Random, sizes: &[usize]) -> u64 {
    let mut end = 0;
    let mut ends = vec![0];
    for &size in sizes {
        end += size as u64;
        if size == 11 {
            ends.push(end);
        }
    }
    let length = random.pick(&ends).saturating_sub(random.between(1, 2) as u64);
    within_limits(random, length)
}

fn within_limits(random: &mut Random, length: u64) -> u64 {
    if LENGTHS.contains(&length) {
        length
    } else {
        short(random)
    }
}
