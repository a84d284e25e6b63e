//! The stored runs of `values`. The list is the page `docs/STORED_VALUES.md`,
//! whose tables have for each file the fields and the lines, worked out by hand
//! from 02. So nothing stands twice, and what is told there is what is run.

use super::{present, same_files, text};
use crate::values;
use std::collections::BTreeSet;
use std::fs;
use std::io;
use std::path::Path;

const PAGE: &str = include_str!("../../../docs/STORED_VALUES.md");

struct Stored {
    file: String,
    fields: Vec<u8>,
    /// As the page has them.
    lines: String,
}

impl Stored {
    /// What `second values` prints.
    fn printed(&self) -> String {
        String::from_utf8_lossy(&values::run(&self.fields).0).into_owned()
    }
}

/// The files of a page: a heading with the name, then a row for each field.
fn stored(page: &str) -> Vec<Stored> {
    let mut all: Vec<Stored> = Vec::new();
    for line in page.lines() {
        if let Some(name) = line.strip_prefix("## `").and_then(|rest| rest.strip_suffix('`')) {
            all.push(Stored { file: name.into(), fields: Vec::new(), lines: String::new() });
        } else if let Some((at, field, said)) = row(line) {
            let file = all.last_mut().expect("a row stands below the name of its file");
            assert_eq!(at, file.fields.len(), "{}: {line}", file.file);
            file.fields.extend(text::bytes(field));
            if !said.is_empty() {
                file.lines += &text::plain(said);
            }
        }
    }
    all
}

/// Offset, field and line. Rows of other tables have no offset or other cells.
fn row(line: &str) -> Option<(usize, &str, &str)> {
    let cells: Vec<&str> = line.split('|').map(str::trim).collect();
    let ["", at, field, _why, said, ""] = cells[..] else { return None };
    Some((at.parse().ok()?, field.trim_matches('`'), said.trim_matches('`')))
}

/// Writes the files, their order and the lines of the page. False if `second
/// values` prints others, or if the folder has other files.
pub fn store(dir: &Path) -> io::Result<bool> {
    let data = dir.join("data");
    fs::create_dir_all(&data)?;
    let (mut args, mut stdout, mut good) = (String::new(), String::new(), true);
    let all = stored(PAGE);
    for Stored { file, fields, lines } in &all {
        fs::write(data.join(file), fields)?;
        args += &format!("{file}\n");
        stdout += &format!("== {file}\n{lines}");
    }
    for other in all.iter().filter(|stored| stored.printed() != stored.lines) {
        println!("{}: other lines than the page has", other.file);
        good = false;
    }
    fs::write(dir.join("args"), args)?;
    fs::write(dir.join("stdout"), stdout)?;
    println!("{} files written", all.len());
    let listed: BTreeSet<String> = all.into_iter().map(|stored| stored.file).collect();
    Ok(same_files("the folder", present(&data)?, listed) & good)
}

#[cfg(test)]
mod tests {
    use super::*;
    use crate::value_coverage::ValueCoverage;

    fn named(name: &str) -> Stored {
        stored(PAGE).into_iter().find(|stored| stored.file == name).unwrap()
    }

    #[test]
    fn lines_are_those_of_the_page() {
        for stored in stored(PAGE) {
            assert_eq!(stored.printed(), stored.lines, "{}", stored.file);
        }
    }

    #[test]
    fn names_differ() {
        let names: BTreeSet<String> = stored(PAGE).into_iter().map(|stored| stored.file).collect();
        assert_eq!(names.len(), stored(PAGE).len());
    }

    #[test]
    fn nothing_is_left_out() {
        let mut total = ValueCoverage::default();
        stored(PAGE).iter().for_each(|stored| total.add(&values::run(&stored.fields).1));
        assert_eq!(total.missing().join(" "), "");
    }

    #[test]
    fn rows_and_names() {
        let page = "text\n## `a.bin`\n| At | Field | Why | Line |\n|---|---|---|---|\n\
                    | 0 | `01 0001 42` | x | `whole 42` |\n| 4 | `06` | y | |\n## Other\n\
                    | 1 | 1 | 0 | 127 | 3F |\n## `b.bin`\n";
        let files = stored(page);
        assert_eq!(files.len(), 2);
        assert_eq!(files[0].fields, [0x01, 0x00, 0x01, 0x42, 0x06]);
        assert_eq!(files[0].lines, "whole 42\n");
        assert_eq!((files[1].file.as_str(), files[1].fields.len()), ("b.bin", 0));
    }

    #[test]
    fn sizes() {
        assert_eq!(named("empty.bin").fields.len(), 0);
        assert_eq!(named("size-65536.bin").fields.len(), 65_536);
        assert_eq!(named("size-65537.bin").fields.len(), 65_537);
    }

    /// The program's own test is the sample.
    #[test]
    fn sample_of_the_program() {
        let sample = named("sample.bin");
        assert_eq!(sample.fields, include_bytes!("../../../crates/values/stdin"));
        assert_eq!(sample.lines, include_str!("../../../crates/values/stdout"));
    }
}
