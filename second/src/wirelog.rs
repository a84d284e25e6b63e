//! The program `wirelog`: a length and a scenario in, the held records out.

use crate::bench;
use crate::bus::Bus;
use crate::lines;
use crate::log::{self, Log};
use crate::log_coverage::{LogCoverage, Reached};
use crate::scenario::{self, Op};

/// Digits only; a number too great for the type is outside the limits anyway.
pub fn length(text: &str) -> Option<u64> {
    let readable = !text.is_empty() && text.bytes().all(|b| b.is_ascii_digit());
    readable.then(|| text.parse().unwrap_or(u64::MAX))
}

/// What is printed, and what the log came to. The length is looked at first.
pub fn run(length: u64, bytes: &[u8]) -> (Vec<u8>, LogCoverage) {
    let mut out = Vec::new();
    let mut reached = Reached::default();
    match (Log::set_up(length), scenario::parse(bytes)) {
        (Err(number), _) => {
            reached.refused(number);
            lines::push_refusal(&mut out, number);
        }
        (_, Err(bad)) => {
            reached.refused(bad.refusal);
            lines::push_form_refusal(&mut out, bad.refusal, bad.offset);
        }
        (Ok(mut log), Ok(ops)) => {
            records(&ops, |record| reached.note(&mut log, record));
            log.held().iter().for_each(|record| lines::push_record(&mut out, record));
        }
    }
    (out, reached.in_all())
}

/// The record of every event of a scenario, as it comes up.
fn records(ops: &[Op], mut heed: impl FnMut(Vec<u8>)) {
    let mut bus = Bus::new();
    for op in ops {
        // A call that is turned down tells nobody anything: no record.
        let _ = bench::operate(&mut bus, op);
        for event in bus.events() {
            heed(log::record(bus.table().name(event.station), event));
        }
        bus.forget_events();
    }
}

/// The sizes of all records of a scenario; none if it is of bad form.
pub fn sizes(bytes: &[u8]) -> Vec<usize> {
    let mut sizes = Vec::new();
    if let Ok(ops) = scenario::parse(bytes) {
        records(&ops, |record| sizes.push(record.len()));
    }
    sizes
}
