//! The program `display`: a scenario in, who is next after each field out.

use crate::bench;
use crate::bus::Bus;
use crate::display_coverage::{DisplayCoverage, Sight};
use crate::lines;
use crate::scenario::{self, Op};

/// What is printed, and what came up in it.
pub fn run(bytes: &[u8]) -> (Vec<u8>, DisplayCoverage) {
    let mut out = Vec::new();
    let mut seen = DisplayCoverage::default();
    match scenario::parse(bytes) {
        Ok(ops) => show(&ops, &mut out, &mut seen),
        Err(bad) => {
            seen.refused_form(bad.refusal);
            lines::push_form_refusal(&mut out, bad.refusal, bad.offset);
        }
    }
    seen.scenario();
    (out, seen)
}

fn show(ops: &[Op], out: &mut Vec<u8>, seen: &mut DisplayCoverage) {
    let mut bus = Bus::new();
    let mut before = Sight::of(&bus);
    for op in ops {
        // A call that is turned down has no line of its own.
        let done = bench::operate(&mut bus, op);
        let after = Sight::of(&bus);
        lines::push_next(out, bus.slot_number(), after.next());
        seen.line(op, done.is_err(), &before, &after);
        seen.left(&bus, &after);
        bus.forget_events();
        before = after;
    }
}

pub fn field_of_line(bytes: &[u8], line: usize) -> Option<Vec<u8>> {
    scenario::field_of_line(bytes, line, scenario::operation)
}
