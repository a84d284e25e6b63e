//! Who is next (02, E7). Nobody keeps the answer: whoever asks walks over the
//! table of stations, from the first attached to the last.

use crate::bus::Bus;
use crate::wire::rank;

/// The masters met on the way, by their addresses.
#[derive(Default)]
pub struct Walk {
    /// With a telegram in the queue, admitted or not.
    pub waiting: Vec<u8>,
    /// Those of them that are admitted.
    pub admitted: Vec<u8>,
}

pub fn walk(bus: &Bus) -> Walk {
    let mut met = Walk::default();
    let table = bus.table();
    for station in 0..table.count() {
        if table.telegrams(station) == 0 {
            continue;
        }
        met.waiting.push(table.name(station));
        if bus.is_admitted(station) {
            met.admitted.push(table.name(station));
        }
    }
    met
}

impl Walk {
    /// The least by class and then by sub-address, or nobody.
    pub fn next(&self) -> Option<u8> {
        self.admitted.iter().copied().min_by_key(|&master| rank(master))
    }
}
