//! The stored scenarios: small files that show one thing each, with the lines
//! they must give, worked out by hand from 01 as the requests of 02 left it.
//!
//! To add one, write an entry into the list it belongs to and a row into the
//! README beside the files, then run `second stored DIR`.

mod access;
mod answers;
mod broken_pair;
mod calls;
pub mod counts;
pub mod display;
mod elapsed;
mod form;
mod full_table;
pub mod logs;
mod longest;
mod over_long;
mod parts;
mod text;
pub mod values;

use crate::bench;
use std::collections::BTreeSet;
use std::fs;
use std::io;
use std::path::Path;

pub struct Entry {
    pub name: &'static str,
    /// What the file is there for; only for those who read the list.
    pub _shows: &'static str,
    /// The bytes; see `text::bytes`.
    pub hex: &'static str,
    /// The lines after the header, with slashes between them.
    pub lines: &'static str,
}

const fn entry(
    name: &'static str,
    shows: &'static str,
    hex: &'static str,
    lines: &'static str,
) -> Entry {
    Entry { name, _shows: shows, hex, lines }
}

impl Entry {
    fn file(&self) -> String {
        format!("{}.bin", self.name)
    }

    fn expected(&self) -> Vec<u8> {
        text::lines(self.lines).into_bytes()
    }
}

pub fn entries() -> impl Iterator<Item = &'static Entry> {
    let lists = [
        form::ENTRIES,
        calls::ENTRIES,
        access::ENTRIES,
        parts::ENTRIES,
        answers::ENTRIES,
        over_long::ENTRIES,
        elapsed::ENTRIES,
        broken_pair::ENTRIES,
        longest::ENTRIES,
    ];
    lists.into_iter().flatten()
}

/// One file's share of what `second lines` prints.
pub fn push_lines(out: &mut Vec<u8>, name: &str, scenario: &[u8]) {
    out.extend_from_slice(format!("== {name}\n").as_bytes());
    out.extend_from_slice(&bench::run(scenario).0);
}

/// Writes the files, their order and their lines below the folder. False if
/// the simulator gives other lines than the list, or if the README or the
/// folder names other files than the list.
pub fn store(dir: &Path) -> io::Result<bool> {
    let data = dir.join("data");
    fs::create_dir_all(&data)?;
    let (mut args, mut stdout) = (String::new(), Vec::new());
    let mut good = true;
    for entry in entries() {
        let scenario = text::bytes(entry.hex);
        if bench::run(&scenario).0 != entry.expected() {
            println!("{}: other lines than the list has", entry.name);
            good = false;
        }
        fs::write(data.join(entry.file()), &scenario)?;
        args += &format!("{}\n", entry.file());
        push_lines(&mut stdout, &entry.file(), &scenario);
    }
    fs::write(dir.join("args"), args)?;
    fs::write(dir.join("stdout"), stdout)?;
    println!("{} files written", entries().count());
    let listed: BTreeSet<String> = entries().map(Entry::file).collect();
    Ok(same_files("README.md", named(&data.join("README.md"))?, listed.clone())
        & same_files("the folder", present(&data)?, listed)
        & good)
}

/// The files named in the first column of the README's tables.
fn named(readme: &Path) -> io::Result<BTreeSet<String>> {
    let text = fs::read_to_string(readme).or_else(|error| match error.kind() {
        io::ErrorKind::NotFound => Ok(String::new()),
        _ => Err(error),
    })?;
    Ok(rows(&text))
}

fn rows(text: &str) -> BTreeSet<String> {
    let cells = text.lines().filter_map(|line| line.strip_prefix("| `")?.split_once("` |"));
    cells.map(|(file, _)| file.to_string()).collect()
}

fn present(data: &Path) -> io::Result<BTreeSet<String>> {
    let mut files = BTreeSet::new();
    for item in fs::read_dir(data)? {
        let name = item?.file_name().to_string_lossy().into_owned();
        if name.ends_with(".bin") {
            files.insert(name);
        }
    }
    Ok(files)
}

fn same_files(place: &str, found: BTreeSet<String>, listed: BTreeSet<String>) -> bool {
    for file in listed.difference(&found) {
        println!("{place} lacks {file}");
    }
    for file in found.difference(&listed) {
        println!("{place} has {file}, which is not in the list");
    }
    listed == found
}

#[cfg(test)]
mod tests {
    use super::*;
    use crate::coverage::Coverage;

    #[test]
    fn every_event_and_refusal_is_there() {
        let mut total = Coverage::default();
        for entry in entries() {
            total.add(&bench::run(&text::bytes(entry.hex)).1);
        }
        assert_eq!(total.missing().join(" "), "");
    }

    #[test]
    fn lines_are_those_of_the_list() {
        for entry in entries() {
            let printed = bench::run(&text::bytes(entry.hex)).0;
            let printed = String::from_utf8(printed).unwrap();
            assert_eq!(printed, text::lines(entry.lines), "{}", entry.name);
        }
    }

    #[test]
    fn names_are_plain_and_differ() {
        let names: BTreeSet<&str> = entries().map(|entry| entry.name).collect();
        assert_eq!(names.len(), entries().count());
        let plain = |c: char| c.is_ascii_lowercase() || c.is_ascii_digit() || c == '-';
        assert!(names.iter().all(|name| name.chars().all(plain)));
    }

    fn bytes_of(name: &str) -> Vec<u8> {
        text::bytes(entries().find(|entry| entry.name == name).unwrap().hex)
    }

    /// The counts of a scenario whose names begin so.
    fn counts_of(group: &str, name: &str) -> String {
        let line = bench::run(&bytes_of(name)).1.to_string();
        let values = line.split(group).skip(1).map(|count| count.split(['=', ' ']));
        values.map(|mut words| words.nth(1).unwrap().to_string()).collect::<Vec<_>>().join(" ")
    }

    #[test]
    fn over_long_is_counted_by_its_place() {
        let counts = |name| counts_of(" over-long-", name);
        assert_eq!(counts("over-long-to-slave"), "1 0 0 0 0");
        assert_eq!(counts("over-long-in-repeat"), "0 1 0 0 0");
        assert_eq!(counts("over-long-broadcast-ff"), "0 0 1 0 0");
        assert_eq!(counts("over-long-answer-ff"), "0 0 0 1 0");
        assert_eq!(counts("over-long-answer-in-repeat"), "0 0 0 0 2");
    }

    /// Part, its repetition, broadcast, answer, its repetition; in the CRC,
    /// behind a pair, A9 A9, after quiet, greatest; different positions.
    #[test]
    fn broken_pairs_are_counted() {
        let counts = |name| counts_of(" pair-", name);
        assert_eq!(counts("reading-ends-silent"), "2 0 0 0 0 0 0 0 0 0 0");
        assert_eq!(counts("broken-pair-owner-failed-1"), "1 0 0 0 0 0 0 0 0 0 0");
        assert_eq!(counts("broken-pair-in-repeated-part"), "0 1 0 0 0 0 0 0 0 0 0");
        assert_eq!(counts("broken-pair-broadcast"), "0 0 1 0 0 0 0 0 0 0 0");
        assert_eq!(counts("answer-failed-5"), "0 0 0 1 0 0 0 0 0 0 1");
        assert_eq!(counts("broken-pair-in-repeat"), "0 0 0 0 2 0 0 0 0 0 2");
        assert_eq!(counts("broken-pair-crc"), "0 0 0 2 0 2 0 0 0 0 2");
        assert_eq!(counts("broken-pair-behind-pair"), "0 0 0 2 0 1 2 0 0 0 2");
        assert_eq!(counts("broken-pair-a9-a9"), "0 0 0 1 0 0 0 1 0 0 1");
        assert_eq!(counts("broken-pair-quiet"), "0 0 0 1 0 0 0 0 1 0 1");
        assert_eq!(counts("broken-pair-greatest"), "0 0 0 1 0 1 1 0 0 1 1");
        assert_eq!(counts("broken-pair-four-times"), "0 0 0 4 0 0 0 0 0 0 1");
        assert_eq!(counts("answer-failed-4-after-a9"), "0 0 0 0 0 0 0 0 0 0 0");
        assert_eq!(counts("over-long-answer-a9-aa"), "0 0 0 0 0 0 0 0 0 0 0");
    }

    #[test]
    fn tenures_are_counted() {
        let counts = |name| {
            let line = bench::run(&bytes_of(name)).1.to_string();
            line[line.find(" left-").unwrap() + 1..].to_string()
        };
        let rest = "part-39=0 answer-35=0 longest=";
        let left = "left-taken=1 left-failed=1 left-given-one=2 left-given-broadcast=0";
        assert_eq!(
            counts("elapsed-slave-after-owner"),
            format!("{left} free-1=0 free-over-255=0 {rest}11 pair-positions=0")
        );
        let none = "left-taken=0 left-failed=0 left-given-one=0 left-given-broadcast=0";
        let long = format!("{none} free-1=0 free-over-255=1 {rest}256 pair-positions=0");
        assert_eq!(counts("elapsed-quiet-answer"), long);
        let at_once = format!("{none} free-1=1 free-over-255=0 {rest}1 pair-positions=0");
        assert_eq!(counts("access-mark-of-a-loser"), at_once);
    }

    /// Each given line of 39 symbols, and each answer line of 35.
    #[test]
    fn longest_are_counted() {
        let counts = |name| [counts_of(" part-", name), counts_of(" answer-", name)].join(" ");
        assert_eq!(counts("part-longest"), "1 0");
        assert_eq!(counts("longest-repeated"), "1 1");
        assert_eq!(counts("longest-answer-heard"), "0 1");
        assert_eq!(counts("longest-broadcast"), "3 0");
        assert_eq!(counts("longest-beside-38"), "1 0");
        assert_eq!(counts("longest-last-symbol"), "0 0");
        assert_eq!(counts("longest-four"), "5 0");
        assert_eq!(counts("limit-nn-queue"), "0 0");
    }

    #[test]
    fn sizes() {
        let size = |name| bytes_of(name).len();
        assert_eq!(size("empty"), 0);
        assert_eq!(size("size-65536"), 65_536);
        assert_eq!(size("size-65537"), 65_537);
        assert_eq!(size("long-run"), 65_535);
    }

    #[test]
    fn readme_rows() {
        let text = "| File | Shows |\n|---|---|\n| `a.bin` | x |\ntext `c.bin`\n| `b.bin` | y |\n";
        assert_eq!(rows(text), BTreeSet::from(["a.bin".to_string(), "b.bin".to_string()]));
    }
}
