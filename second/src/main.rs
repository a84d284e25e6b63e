//! Second implementation of the eBUS link layer bench, for comparison.

mod bench;
mod bus;
mod compare;
mod count_coverage;
mod counts;
mod coverage;
mod display;
mod display_coverage;
mod dyadic;
mod event;
mod every_value;
mod intake;
mod lines;
mod log;
mod log_coverage;
mod maker;
mod random;
mod recount;
mod scenario;
mod stored;
mod table;
#[cfg(test)]
mod tests;
mod timing;
mod transfer;
mod types;
mod value_coverage;
mod values;
mod walk;
mod wire;
mod wirelog;

use std::fs::File;
use std::io::{self, Read, Write};
use std::path::Path;
use std::process::ExitCode;

const USAGE: &str = "usage:
  second run                                        scenario on standard input
  second log LENGTH                                 the log, scenario on standard input
  second display                                    who is next, scenario on standard input
  second counts [QQ ZZ]                             counts by pair, scenario on standard input
  second values                                     values, fields on standard input
  second make SEED                                  scenario on standard output
  second compare N SEED PROGRAM [KEEP_DIR]          against another program
  second compare-logs N SEED PROGRAM [KEEP_DIR]     the logs against another program
  second compare-display N SEED PROGRAM [KEEP_DIR]  who is next against another program
  second compare-counts N SEED PROGRAM [KEEP_DIR]   counts by pair against another program
  second compare-values N SEED PROGRAM [KEEP_DIR]   values against another program
  second every-value PROGRAM [KEEP_DIR]             every code and value against another program
  second coverage N SEED                            what N scenarios reach
  second lines FILE...                              the lines of scenario files
  second stored DIR                                 writes the stored scenarios
  second stored-logs DIR                            writes the stored logs
  second stored-display DIR                         writes the stored displays
  second stored-counts DIR                          writes the stored counts
  second stored-values DIR                          writes the stored values
  second bench PROGRAM                              times another program
  second bench-display PROGRAM                      times another display";

fn main() -> ExitCode {
    let args: Vec<String> = std::env::args().skip(1).collect();
    let words: Vec<&str> = args.iter().map(String::as_str).collect();
    match dispatch(&words) {
        Some(Ok(code)) => code,
        Some(Err(error)) => {
            eprintln!("second: {error}");
            ExitCode::from(2)
        }
        None => {
            eprintln!("{USAGE}");
            ExitCode::from(2)
        }
    }
}

/// None if the words make no command.
fn dispatch(words: &[&str]) -> Option<io::Result<ExitCode>> {
    match *words {
        ["run"] => Some(run()),
        ["log", length] => Some(run_log(wirelog::length(length)?)),
        ["display"] => Some(run_display()),
        ["counts", ref pair @ ..] => Some(run_counts(counts::question(pair)?)),
        ["values"] => Some(run_values()),
        ["make", seed] => {
            let seed = seed.parse().ok()?;
            Some(print(&maker::make(seed)))
        }
        ["coverage", count, seed] => {
            let (count, seed) = (count.parse().ok()?, seed.parse().ok()?);
            Some(show_coverage(count, seed))
        }
        ["every-value", program, ref rest @ ..] if rest.len() <= 1 => {
            Some(compare::every_value(program, folder(rest)).map(code))
        }
        ["lines", ref files @ ..] if !files.is_empty() => Some(show_lines(files)),
        ["stored", dir] => Some(stored::store(Path::new(dir)).map(code)),
        ["stored-logs", dir] => Some(stored::logs::store(Path::new(dir)).map(code)),
        ["stored-display", dir] => Some(stored::display::store(Path::new(dir)).map(code)),
        ["stored-counts", dir] => Some(stored::counts::store(Path::new(dir)).map(code)),
        ["stored-values", dir] => Some(stored::values::store(Path::new(dir)).map(code)),
        ["bench", program] => Some(timing::bench(program).map(code)),
        ["bench-display", program] => Some(timing::display(program).map(code)),
        [what, n, seed, program, ref rest @ ..] if rest.len() <= 1 => {
            let compare = comparison(what)?;
            let (count, seed) = (n.parse().ok()?, seed.parse().ok()?);
            Some(compare(count, seed, program, folder(rest)).map(code))
        }
        _ => None,
    }
}

/// From a number of seeds, the first of them and a program.
fn comparison(command: &str) -> Option<fn(u64, u64, &str, &Path) -> io::Result<bool>> {
    Some(match command {
        "compare" => compare::compare,
        "compare-logs" => compare::compare_logs,
        "compare-display" => compare::compare_display,
        "compare-counts" => compare::compare_counts,
        "compare-values" => compare::compare_values,
        _ => return None,
    })
}

/// Where a difference is kept, if no folder is named.
fn folder<'a>(rest: &[&'a str]) -> &'a Path {
    Path::new(rest.first().copied().unwrap_or("."))
}

fn code(good: bool) -> ExitCode {
    if good {
        ExitCode::SUCCESS
    } else {
        ExitCode::FAILURE
    }
}

fn print(bytes: &[u8]) -> io::Result<ExitCode> {
    let mut out = io::stdout().lock();
    out.write_all(bytes)?;
    out.flush()?;
    Ok(ExitCode::SUCCESS)
}

/// One byte more than allowed is enough to see that a file is too long.
fn read(source: impl Read) -> io::Result<Vec<u8>> {
    let mut bytes = Vec::new();
    source.take(scenario::MAX_BYTES as u64 + 1).read_to_end(&mut bytes)?;
    Ok(bytes)
}

fn run() -> io::Result<ExitCode> {
    let (out, _) = bench::run(&read(io::stdin().lock())?);
    print(&out)
}

fn run_log(length: u64) -> io::Result<ExitCode> {
    let (out, _) = wirelog::run(length, &read(io::stdin().lock())?);
    print(&out)
}

fn run_display() -> io::Result<ExitCode> {
    let (out, _) = display::run(&read(io::stdin().lock())?);
    print(&out)
}

fn run_counts(question: counts::Question) -> io::Result<ExitCode> {
    let (out, _) = counts::run(question, &read(io::stdin().lock())?);
    print(&out)
}

fn run_values() -> io::Result<ExitCode> {
    let (out, _) = values::run(&read(io::stdin().lock())?);
    print(&out)
}

fn show_lines(files: &[&str]) -> io::Result<ExitCode> {
    let mut out = Vec::new();
    for file in files {
        let path = Path::new(file);
        let named = |e: io::Error| io::Error::new(e.kind(), format!("{file}: {e}"));
        let bytes = File::open(path).and_then(read).map_err(named)?;
        let name = path.file_name().unwrap_or_default().to_string_lossy();
        stored::push_lines(&mut out, &name, &bytes);
    }
    print(&out)
}

/// Fails if something stays at 0 that the maker ought to reach.
fn show_coverage(count: u64, seed: u64) -> io::Result<ExitCode> {
    let total = compare::coverage(count, seed);
    let logs = compare::log_coverage(count, seed);
    let display = compare::display_coverage(count, seed);
    let counts = compare::count_coverage(count, seed);
    let values = compare::value_coverage(count, seed);
    println!("{total}\n{logs}\n{display}\n{counts}\n{values}");
    let named = [total.missing(), logs.missing(), counts.missing()].concat();
    let mut missing: Vec<String> = named.iter().map(|name| name.to_string()).collect();
    missing.extend(total.missing_positions());
    missing.extend(display.missing());
    missing.extend(values.missing());
    if !missing.is_empty() {
        println!("never: {}", missing.join(" "));
    }
    Ok(code(missing.is_empty()))
}
