//! Random scenarios. Every second one is made blind, the others with the
//! simulator in the loop, so that it is disturbed where it hurts. Some more for
//! the programs `display` and `counts`, and random fields for the program
//! `values`.

mod aimed;
mod around_syn;
mod blind;
mod broken_pair;
mod draft;
mod fields;
mod length;
mod longest;
mod many_pairs;
mod question;
mod ruin;
mod shares;

use crate::counts;
use crate::random::Random;
use crate::wirelog;
use draft::Draft;
pub use fields::make as make_fields;

/// The scenario of a seed; the same bytes every time.
pub fn make(seed: u64) -> Vec<u8> {
    let mut draft = Draft::new(seed);
    draft.attach_stations();
    fill(&mut draft);
    ruin::ruin(draft)
}

fn fill(draft: &mut Draft) {
    if draft.random.percent(50) {
        blind::fill(draft);
    } else {
        aimed::fill(draft);
    }
}

/// A scenario for the display: one in three as any other, the others around
/// SYN, where its answers change.
pub fn make_display(seed: u64) -> Vec<u8> {
    if seed.is_multiple_of(3) {
        return make(seed);
    }
    let mut draft = Draft::new(seed);
    around_syn::fill(&mut draft);
    ruin::ruin(draft)
}

/// A scenario for the counts, one in four as any other, and what to ask of it.
pub fn make_counts(seed: u64) -> (Vec<u8>, Vec<String>) {
    let scenario = if seed.is_multiple_of(4) {
        make(seed)
    } else {
        let mut draft = Draft::new(seed);
        many_pairs::fill(&mut draft);
        ruin::ruin(draft)
    };
    let question = question::question(&mut Random::new(!seed), &counts::transfers(&scenario));
    (scenario, question)
}

/// A scenario and a length for its log.
pub fn make_log(seed: u64) -> (Vec<u8>, String) {
    let scenario = make(seed);
    let length = length::length(&mut Random::new(!seed), &wirelog::sizes(&scenario));
    (scenario, length)
}
