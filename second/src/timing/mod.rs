//! Times another program and `second run` on the same scenarios. Both are
//! child processes, so both pay for their start; the row `empty` shows how
//! much that is.

mod load;
mod peak;

use crate::compare::feed;
use load::Load;
use std::io;
use std::path::Path;
use std::process::Command;
use std::time::{Duration, Instant};

const MIN_RUNS: u32 = 3;
const MAX_RUNS: u32 = 20;
const ENOUGH: Duration = Duration::from_secs(5);

/// What is timed: `second`'s own command, and what is counted in a row.
struct Kind {
    command: &'static str,
    unit: &'static str,
}

struct Row {
    name: &'static str,
    count: u32,
    theirs: Duration,
    ours: Duration,
    same: bool,
}

/// False if the two print different lines for one of the scenarios.
pub fn bench(program: &str) -> io::Result<bool> {
    time(program, &Kind { command: "run", unit: "slot" }, &load::all())
}

/// The same with a program that prints what `display` prints.
pub fn display(program: &str) -> io::Result<bool> {
    time(program, &Kind { command: "display", unit: "line" }, &load::asked())
}

fn time(program: &str, kind: &Kind, loads: &[Load]) -> io::Result<bool> {
    let second = std::env::current_exe()?;
    println!("{}", head(kind.unit));
    let mut agreed = true;
    for load in loads {
        let row = measure(load, program, &second, kind.command)?;
        let peak = peak::kilobytes(&mut Command::new(program), &load.scenario)?;
        agreed &= row.same;
        println!("{}", shown(&row, peak));
    }
    Ok(agreed)
}

/// The best of some runs; the two take turns, so that a busy machine hits both.
fn measure(load: &Load, program: &str, second: &Path, command: &str) -> io::Result<Row> {
    let (mut theirs, mut ours) = (Duration::MAX, Duration::MAX);
    let mut same = true;
    let begin = Instant::now();
    for run in 1..=MAX_RUNS {
        let (their_time, their_lines) = once(&mut Command::new(program), load)?;
        let (our_time, our_lines) = once(Command::new(second).arg(command), load)?;
        theirs = theirs.min(their_time);
        ours = ours.min(our_time);
        same &= their_lines == our_lines;
        if run >= MIN_RUNS && begin.elapsed() > ENOUGH {
            break;
        }
    }
    Ok(Row { name: load.name, count: load.slots, theirs, ours, same })
}

fn once(command: &mut Command, load: &Load) -> io::Result<(Duration, Vec<u8>)> {
    let begin = Instant::now();
    let (lines, _) = feed(command, &load.scenario)?;
    Ok((begin.elapsed(), lines))
}

fn head(unit: &str) -> String {
    format!(
        "scenario           {unit}s  program ms  second ms  program ns/{unit}  \
         second ns/{unit}  ratio  program peak kB"
    )
}

fn shown(row: &Row, peak: Option<u64>) -> String {
    let milliseconds = |time: Duration| time.as_secs_f64() * 1e3;
    let each = |time: Duration| match row.count {
        0 => "-".to_string(),
        count => format!("{:.3}", time.as_secs_f64() * 1e9 / count as f64),
    };
    format!(
        "{:<13}{:>11}{:>12.2}{:>11.2}{:>17}{:>16}{:>7.2}{:>17}{}",
        row.name,
        row.count,
        milliseconds(row.theirs),
        milliseconds(row.ours),
        each(row.theirs),
        each(row.ours),
        row.theirs.as_secs_f64() / row.ours.as_secs_f64(),
        peak.map_or("-".to_string(), |kilobytes| kilobytes.to_string()),
        if row.same { "" } else { "  OTHER LINES" },
    )
}
