//! Questions for the counts of a scenario, as a program is given them.

use crate::event::Pair;
use crate::random::Random;
use crate::recount::{with_records, Freed};

/// No arguments, or a pair that has a record, is in others or was never seen.
pub fn question(random: &mut Random, freed: &[Freed]) -> Vec<String> {
    let records = with_records(freed);
    let seen = freed.iter().map(|transfer| transfer.pair);
    let others: Vec<Pair> = seen.filter(|pair| !records.contains(pair)).collect();
    let pair = match random.below(100) {
        0..=49 => return Vec::new(),
        50..=64 => one_of(random, &records),
        65..=69 => records.last().copied(),
        70..=84 => one_of(random, &others),
        85..=93 => one_of(random, &records).map(|pair| nearly(random, pair)),
        _ => None,
    };
    let pair = pair.unwrap_or_else(|| [random.byte(), random.byte()]);
    pair.map(|address| in_digits(random, address)).to_vec()
}

fn one_of(random: &mut Random, pairs: &[Pair]) -> Option<Pair> {
    (!pairs.is_empty()).then(|| random.pick(pairs))
}

/// The other way round, or with one bit changed.
fn nearly(random: &mut Random, [source, target]: Pair) -> Pair {
    let bit = 1 << random.below(8);
    random.pick(&[[target, source], [source ^ bit, target], [source, target ^ bit]])
}

/// Great letters, small ones, or both.
fn in_digits(random: &mut Random, address: u8) -> String {
    let great = format!("{address:02X}");
    match random.below(10) {
        0..=5 => great,
        6..=8 => great.to_lowercase(),
        _ => great[..1].to_lowercase() + &great[1..],
    }
}
