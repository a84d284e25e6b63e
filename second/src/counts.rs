//! The program `counts`: a scenario in, the transfers of each pair out. Nothing
//! is counted while the scenario runs; its events are kept, and recounted.

use crate::bench;
use crate::bus::Bus;
use crate::count_coverage::CountCoverage;
use crate::event::{Event, Pair};
use crate::lines;
use crate::recount::{count, freed, with_records, Freed};
use crate::scenario::{self, Op};

/// What the program is asked for.
#[derive(Clone, Copy, Debug, PartialEq, Eq)]
pub enum Question {
    All,
    Of(Pair),
}

/// None if the arguments are no question.
pub fn question(args: &[&str]) -> Option<Question> {
    match *args {
        [] => Some(Question::All),
        [source, target] => Some(Question::Of([address(source)?, address(target)?])),
        _ => None,
    }
}

/// Exactly two digits; what the library reads may have a sign.
fn address(text: &str) -> Option<u8> {
    let readable = text.len() == 2 && text.bytes().all(|digit| digit.is_ascii_hexdigit());
    u8::from_str_radix(text, 16).ok().filter(|_| readable)
}

/// What is printed, and what came up in it. The form is looked at first.
pub fn run(question: Question, bytes: &[u8]) -> (Vec<u8>, CountCoverage) {
    let mut out = Vec::new();
    let mut seen = CountCoverage::of_one();
    match scenario::parse(bytes) {
        Ok(ops) => {
            let events = events(&ops);
            let freed = freed(&events);
            seen.run(&events, &freed);
            seen.question(question, &freed);
            push_answer(&mut out, answer(question, &freed), &mut seen);
        }
        Err(bad) => {
            seen.refused_form(bad.refusal, question);
            lines::push_form_refusal(&mut out, bad.refusal, bad.offset);
        }
    }
    (out, seen)
}

/// Every event of a scenario, in their order.
fn events(ops: &[Op]) -> Vec<Event> {
    let mut bus = Bus::new();
    let mut events = Vec::new();
    for op in ops {
        // A call that is turned down tells nobody anything.
        let _ = bench::operate(&mut bus, op);
        events.extend_from_slice(bus.events());
        bus.forget_events();
    }
    events
}

/// The transfers of a scenario; none if it is of bad form.
pub fn transfers(bytes: &[u8]) -> Vec<Freed> {
    scenario::parse(bytes).map_or(Vec::new(), |ops| freed(&events(&ops)))
}

/// A pair, or none for the others, with taken and failed.
type Line = (Option<Pair>, [u32; 2]);

/// None if the pair has no record of its own.
fn answer(question: Question, freed: &[Freed]) -> Option<Vec<Line>> {
    let records = with_records(freed);
    let line = |pair| (Some(pair), count(freed, |other| *other == pair));
    match question {
        Question::All => {
            let others = (None, count(freed, |pair| !records.contains(pair)));
            Some(records.iter().map(|&pair| line(pair)).chain([others]).collect())
        }
        Question::Of(pair) => records.contains(&pair).then(|| vec![line(pair)]),
    }
}

fn push_answer(out: &mut Vec<u8>, answer: Option<Vec<Line>>, seen: &mut CountCoverage) {
    let Some(table) = answer else {
        return lines::push_refusal(out, 20);
    };
    for (pair, counts) in table {
        seen.line(pair, counts);
        lines::push_count(out, pair, counts);
    }
}
