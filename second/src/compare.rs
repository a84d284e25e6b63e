//! Runs made scenarios through the simulator and through another program.

use crate::bench;
use crate::count_coverage::CountCoverage;
use crate::counts;
use crate::coverage::Coverage;
use crate::display;
use crate::display_coverage::DisplayCoverage;
use crate::every_value;
use crate::log_coverage::LogCoverage;
use crate::maker;
use crate::value_coverage::ValueCoverage;
use crate::values;
use crate::wirelog;
use std::io::{self, Write};
use std::path::{Path, PathBuf};
use std::process::{Command, ExitStatus, Stdio};
use std::thread;

fn seeds(count: u64, first: u64) -> impl Iterator<Item = u64> {
    (0..count).map(move |index| first.wrapping_add(index))
}

/// The coverage over N scenarios, with no other program.
pub fn coverage(count: u64, first_seed: u64) -> Coverage {
    let mut total = Coverage::default();
    for seed in seeds(count, first_seed) {
        total.add(&bench::run(&maker::make(seed)).1);
    }
    total
}

/// The same for logs.
pub fn log_coverage(count: u64, first_seed: u64) -> LogCoverage {
    let mut total = LogCoverage::default();
    for seed in seeds(count, first_seed) {
        log_trial(seed, &mut total);
    }
    total
}

/// The same for displays.
pub fn display_coverage(count: u64, first_seed: u64) -> DisplayCoverage {
    let mut total = DisplayCoverage::default();
    for seed in seeds(count, first_seed) {
        total.add(&display::run(&maker::make_display(seed)).1);
    }
    total
}

/// The same for counts.
pub fn count_coverage(count: u64, first_seed: u64) -> CountCoverage {
    let mut total = CountCoverage::default();
    for seed in seeds(count, first_seed) {
        count_trial(seed, &mut total);
    }
    total
}

/// The same for values.
pub fn value_coverage(count: u64, first_seed: u64) -> ValueCoverage {
    let mut total = ValueCoverage::default();
    for seed in seeds(count, first_seed) {
        total.add(&values::run(&maker::make_fields(seed)).1);
    }
    total
}

/// What the other program is given, and our lines for it.
struct Trial {
    /// As a difference names it, and as what is kept of it.
    name: String,
    file: String,
    input: Vec<u8>,
    args: Vec<String>,
    ours: Vec<u8>,
    /// The field that a line is about, where each field has its line.
    field_of_line: fn(&[u8], usize) -> Option<Vec<u8>>,
}

impl Trial {
    fn of_seed(seed: u64, input: Vec<u8>, args: Vec<String>, ours: Vec<u8>) -> Trial {
        let (name, file) = (format!("seed {seed}"), format!("scenario-{seed}.bin"));
        Trial { name, file, input, args, ours, field_of_line: |_, _| None }
    }
}

fn bench_trial(seed: u64, total: &mut Coverage) -> Trial {
    let scenario = maker::make(seed);
    let (ours, seen) = bench::run(&scenario);
    total.add(&seen);
    Trial::of_seed(seed, scenario, Vec::new(), ours)
}

fn log_trial(seed: u64, total: &mut LogCoverage) -> Trial {
    let (scenario, text) = maker::make_log(seed);
    let length = wirelog::length(&text).expect("a length of digits");
    let (ours, seen) = wirelog::run(length, &scenario);
    total.add(&seen);
    Trial::of_seed(seed, scenario, vec![text], ours)
}

fn display_trial(seed: u64, total: &mut DisplayCoverage) -> Trial {
    let scenario = maker::make_display(seed);
    let (ours, seen) = display::run(&scenario);
    total.add(&seen);
    let field_of_line = display::field_of_line;
    Trial { field_of_line, ..Trial::of_seed(seed, scenario, Vec::new(), ours) }
}

fn count_trial(seed: u64, total: &mut CountCoverage) -> Trial {
    let (scenario, args) = maker::make_counts(seed);
    let words: Vec<&str> = args.iter().map(String::as_str).collect();
    let question = counts::question(&words).expect("a question of two digits each");
    let (ours, mut seen) = counts::run(question, &scenario);
    seen.written_as(&words);
    total.add(&seen);
    Trial::of_seed(seed, scenario, args, ours)
}

fn value_trial(name: String, file: String, input: Vec<u8>, total: &mut ValueCoverage) -> Trial {
    let (ours, seen) = values::run(&input);
    total.add(&seen);
    let field_of_line = values::field_of_line;
    Trial { name, file, input, args: Vec::new(), ours, field_of_line }
}

/// Where the other program first went another way.
struct Difference {
    line: usize,
    ours: String,
    theirs: String,
}

/// The bench lines; true if there was no difference.
pub fn compare(count: u64, first_seed: u64, program: &str, keep: &Path) -> io::Result<bool> {
    let mut total = Coverage::default();
    let trials = seeds(count, first_seed).map(|seed| bench_trial(seed, &mut total));
    let agreed = all_agree(trials, program, keep)?;
    println!("{total}");
    Ok(agreed)
}

/// The logs; true if there was no difference.
pub fn compare_logs(count: u64, first_seed: u64, program: &str, keep: &Path) -> io::Result<bool> {
    let mut total = LogCoverage::default();
    let trials = seeds(count, first_seed).map(|seed| log_trial(seed, &mut total));
    let agreed = all_agree(trials, program, keep)?;
    println!("{total}");
    Ok(agreed)
}

/// Who is next after each field; true if there was no difference.
pub fn compare_display(
    count: u64,
    first_seed: u64,
    program: &str,
    keep: &Path,
) -> io::Result<bool> {
    let mut total = DisplayCoverage::default();
    let trials = seeds(count, first_seed).map(|seed| display_trial(seed, &mut total));
    let agreed = all_agree(trials, program, keep)?;
    println!("{total}");
    Ok(agreed)
}

/// The counts by pair; true if there was no difference.
pub fn compare_counts(count: u64, first_seed: u64, program: &str, keep: &Path) -> io::Result<bool> {
    let mut total = CountCoverage::default();
    let trials = seeds(count, first_seed).map(|seed| count_trial(seed, &mut total));
    let agreed = all_agree(trials, program, keep)?;
    println!("{total}");
    Ok(agreed)
}

/// The values of random fields; true if there was no difference.
pub fn compare_values(count: u64, first_seed: u64, program: &str, keep: &Path) -> io::Result<bool> {
    let mut total = ValueCoverage::default();
    let trials = seeds(count, first_seed).map(|seed| {
        let (name, file) = (format!("seed {seed}"), format!("fields-{seed}.bin"));
        value_trial(name, file, maker::make_fields(seed), &mut total)
    });
    let agreed = all_agree(trials, program, keep)?;
    println!("{total}");
    Ok(agreed)
}

/// Every code and every exact value; true if there was no difference.
pub fn every_value(program: &str, keep: &Path) -> io::Result<bool> {
    let mut total = ValueCoverage::default();
    let trials = every_value::files().into_iter().enumerate().map(|(number, input)| {
        let (name, file) = (format!("file {number}"), format!("every-value-{number}.bin"));
        value_trial(name, file, input, &mut total)
    });
    let agreed = all_agree(trials, program, keep)?;
    println!("every value files={} lines={}", total.inputs, total.lines);
    Ok(agreed)
}

/// Stops at the first difference.
fn all_agree(trials: impl Iterator<Item = Trial>, program: &str, keep: &Path) -> io::Result<bool> {
    for trial in trials {
        let (theirs, status) = feed(Command::new(program).args(&trial.args), &trial.input)?;
        if let Some(difference) = first_difference(&trial.ours, &theirs, status) {
            report(&trial, &kept(keep, &trial)?, &difference);
            return Ok(false);
        }
    }
    Ok(true)
}

/// The scenario is written from a thread of its own, because the program may
/// print before it has read everything, or not read everything at all.
pub fn feed(command: &mut Command, scenario: &[u8]) -> io::Result<(Vec<u8>, ExitStatus)> {
    let mut child = command.stdin(Stdio::piped()).stdout(Stdio::piped()).spawn()?;
    let mut input = child.stdin.take().expect("standard input was asked for");
    thread::scope(|scope| {
        scope.spawn(move || {
            let _ = input.write_all(scenario);
        });
        let output = child.wait_with_output()?;
        Ok((output.stdout, output.status))
    })
}

/// The printed lines decide; 01 names no exit status, so only a program that
/// was killed counts as different whatever it printed.
fn first_difference(ours: &[u8], theirs: &[u8], status: ExitStatus) -> Option<Difference> {
    if ours == theirs && status.code().is_some() {
        return None;
    }
    let mut our_lines = ours.split_inclusive(|&b| b == b'\n');
    let mut their_lines = theirs.split_inclusive(|&b| b == b'\n');
    let mut line = 1;
    loop {
        let (our, their) = (our_lines.next(), their_lines.next());
        if our != their || our.is_none() {
            let their = match their {
                None if our.is_none() => format!("(ended by {status})"),
                other => shown(other),
            };
            return Some(Difference { line, ours: shown(our), theirs: their });
        }
        line += 1;
    }
}

fn shown(line: Option<&[u8]>) -> String {
    match line {
        Some(bytes) => format!("{:?}", String::from_utf8_lossy(bytes)),
        None => "(nothing more)".to_string(),
    }
}

fn kept(keep: &Path, trial: &Trial) -> io::Result<PathBuf> {
    std::fs::create_dir_all(keep)?;
    let file = keep.join(&trial.file);
    std::fs::write(&file, &trial.input)?;
    Ok(file)
}

fn report(trial: &Trial, file: &Path, difference: &Difference) {
    println!("difference at {}, line {}", trial.name, difference.line);
    trial.args.iter().for_each(|arg| println!("  given:  {arg}"));
    if let Some(field) = (trial.field_of_line)(&trial.input, difference.line) {
        println!("  field:  {}", shown_bytes(&field));
    }
    println!("  second: {}", difference.ours);
    println!("  other:  {}", difference.theirs);
    println!("  kept as {}", file.display());
}

/// As many bytes as one cares to read.
fn shown_bytes(bytes: &[u8]) -> String {
    let mut words: Vec<String> = bytes.iter().take(32).map(|byte| format!("{byte:02X}")).collect();
    if bytes.len() > 32 {
        words.push(format!("... ({} bytes)", bytes.len()));
    }
    words.join(" ")
}
