//! The bench program: a scenario in, lines out.

use crate::bus::Bus;
use crate::coverage::Coverage;
use crate::lines;
use crate::scenario::{self, Op};
use crate::table::Refusal;

/// A bus together with what has been printed about it so far.
pub struct Bench {
    pub bus: Bus,
    out: Vec<u8>,
    coverage: Coverage,
}

impl Bench {
    pub fn new() -> Bench {
        Bench { bus: Bus::new(), out: lines::HEADER.to_vec(), coverage: Coverage::default() }
    }

    pub fn apply(&mut self, op: &Op) {
        if let Err(number) = operate(&mut self.bus, op) {
            self.coverage.refusal(number);
            lines::push_refusal(&mut self.out, number);
        }
        for event in self.bus.events() {
            self.coverage.event(event);
            lines::push_event(&mut self.out, self.bus.table(), event);
        }
        self.bus.unusable().iter().for_each(|unusable| self.coverage.unusable(unusable));
        self.bus.forget_events();
    }

    pub fn finish(mut self) -> (Vec<u8>, Coverage) {
        lines::push_end(&mut self.out, self.bus.slot_number());
        self.coverage.scenario();
        (self.out, self.coverage)
    }
}

/// Does what a field of the scenario asks for.
pub fn operate(bus: &mut Bus, op: &Op) -> Result<(), Refusal> {
    match *op {
        Op::Master(address) => bus.attach_master(address)?,
        Op::Slave(address) => bus.attach_slave(address)?,
        Op::Reply { address, pb, sb, data } => bus.reply(address, pb, sb, data)?,
        Op::Queue { head, data } => bus.queue(head, data)?,
        Op::Run(count) => bus.run(count as u32),
        Op::Heard(symbol) => bus.run_disturbed(Some(symbol)),
        Op::Quiet => bus.run_disturbed(None),
    }
    Ok(())
}

/// What the bench program prints for a scenario, and what came up in it.
pub fn run(bytes: &[u8]) -> (Vec<u8>, Coverage) {
    let mut bench = Bench::new();
    match scenario::parse(bytes) {
        Ok(ops) => {
            ops.iter().for_each(|op| bench.apply(op));
            bench.finish()
        }
        Err(bad) => {
            let mut out = lines::HEADER.to_vec();
            lines::push_form_refusal(&mut out, bad.refusal, bad.offset);
            bench.coverage.refusal(bad.refusal);
            bench.coverage.scenario();
            (out, bench.coverage)
        }
    }
}
