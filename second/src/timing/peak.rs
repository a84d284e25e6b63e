//! The most memory a program held.

use std::fs;
use std::io::{self, Write};
use std::process::{Command, Stdio};
use std::thread;
use std::time::Duration;

const PAUSE: Duration = Duration::from_micros(50);

/// The peak in kilobytes as the system shows it while the program runs; the
/// last figure seen is taken. None where the system shows none, or where the
/// program has ended before it could be asked for.
pub fn kilobytes(command: &mut Command, scenario: &[u8]) -> io::Result<Option<u64>> {
    let mut child = command.stdin(Stdio::piped()).stdout(Stdio::null()).spawn()?;
    let mut input = child.stdin.take().expect("standard input was asked for");
    let status = format!("/proc/{}/status", child.id());
    let mut last = None;
    thread::scope(|scope| {
        scope.spawn(move || {
            let _ = input.write_all(scenario);
        });
        // A program that has ended is still listed until it is waited for,
        // but has no memory any more.
        while let Some(kilobytes) = fs::read_to_string(&status).ok().and_then(|text| peak(&text)) {
            last = Some(kilobytes);
            thread::sleep(PAUSE);
        }
    });
    child.wait()?;
    Ok(last)
}

fn peak(status: &str) -> Option<u64> {
    let line = status.lines().find_map(|line| line.strip_prefix("VmHWM:"))?;
    line.trim().strip_suffix(" kB")?.parse().ok()
}

#[cfg(test)]
mod tests {
    use super::*;

    #[test]
    fn peak_line() {
        assert_eq!(peak("Name:\tx\nVmPeak:\t 9 kB\nVmHWM:\t    1234 kB\n"), Some(1234));
        assert_eq!(peak("Name:\tx\nState:\tZ (zombie)\n"), None);
    }
}
