//! The stored runs of `counts`: scenarios, questions and their lines, worked out
//! by hand from 01 and 02. How is told in `docs/STORED_COUNTS.md`.

use super::full_table::{BETWEEN, FIRST_ADDRESSES, FIRST_FOUR, LAST_FOUR, SIXTY_FOUR, THIRTY_SIX};
use super::{entries, present, same_files, text};
use crate::counts::{self, Question};
use std::collections::BTreeSet;
use std::fs;
use std::io;
use std::path::Path;

/// A scenario that is not in the lists of this module.
struct Scene {
    name: &'static str,
    /// What is run before it.
    before: &'static str,
    hex: &'static str,
}

const fn scene(name: &'static str, hex: &'static str) -> Scene {
    Scene { name, before: "", hex }
}

const fn on_a_full_table(name: &'static str, hex: &'static str) -> Scene {
    Scene { name, before: SIXTY_FOUR, hex }
}

struct Run {
    /// `all`, or two addresses with a colon between them.
    question: &'static str,
    name: &'static str,
    /// In pieces; slashes part the lines of each.
    lines: [&'static str; 4],
}

const fn run(question: &'static str, name: &'static str, lines: &'static str) -> Run {
    Run { question, name, lines: [lines, "", "", ""] }
}

/// The whole table, with nothing in others.
const fn counted(name: &'static str, records: &'static str) -> Run {
    Run { question: "all", name, lines: [records, "others taken 0 failed 0", "", ""] }
}

/// The whole table of 64 records, each counted once.
const fn full_table(name: &'static str, others: &'static str) -> Run {
    Run { question: "all", name, lines: [FIRST_FOUR, BETWEEN, LAST_FOUR, others] }
}

const SCENES: &[Scene] = &[
    scene(
        "pair-kinds",
        "01 0001 10  01 0001 30  02 0001 08  03 0004 08 5002 64
         04 0004 10 FE 5002  04 0004 10 30 5002  04 0004 10 08 5002  04 0004 10 35 5002
         05 0002 0030",
    ),
    scene(
        "pair-two-masters",
        "01 0001 10  01 0001 30  02 0001 08  03 0004 08 5002 64
         04 0004 10 08 5002  04 0004 10 FE 5002
         04 0004 30 08 5002  04 0004 30 FE 5002  04 0004 30 08 5002  05 0002 003C",
    ),
    scene(
        "pair-both-ways",
        "01 0001 31  01 0001 10  04 0004 31 10 5002  04 0004 31 15 5002
         04 0004 10 31 5002  04 0004 10 36 5002  05 0002 0030",
    ),
    scene(
        "pair-300",
        "01 0001 10  05 0002 000A  ( 04 0004 10 FE 5002  05 0002 0007 )*300
         ( 04 0004 10 FE 5002  05 0002 0002  06 0001 AA )*260",
    ),
    scene(
        "pair-failed-1-to-5",
        "01 0001 10  ( 04 0004 10 08 5002 )*4  05 0002 000C  06 0001 51  04 0004 10 08 5002
         06 0001 AA  05 0002 0006  06 0001 55  05 0002 0007  06 0001 FF  05 0002 0006
         06 0001 FF  05 0002 0007  06 0001 AA  05 0002 0006  06 0001 00  06 0001 11
         05 0002 0001",
    ),
    scene(
        "pair-broadcast-last-symbol",
        "01 0001 10  02 0001 08  ( 04 0004 10 FE 5002 )*2  05 0002 000F  06 0001 FC
         05 0002 0010  07 0000",
    ),
    scene(
        "pair-master-fails",
        "01 0001 10  01 0001 30  ( 04 0004 10 30 5002 )*4  05 0002 0010  06 0001 FF
         05 0002 0006  06 0001 FF  05 0002 0007  06 0001 AA  05 0002 0006  06 0001 55
         05 0002 0009",
    ),
    scene(
        "pair-failed-then-taken",
        "01 0001 10  02 0001 08  03 0004 08 5002 64  ( 04 0004 10 08 5002 )*4
         05 0002 000C  06 0001 51  05 0002 001E  06 0001 AA  05 0002 000C",
    ),
    scene(
        "pair-not-the-answer-before",
        "01 0001 10  02 0001 08  03 0004 08 5002 64
         04 0004 10 08 5002  04 0004 10 52 5002  04 0004 10 30 5002  04 0004 10 08 5002
         05 0002 001C  06 0001 00  05 0002 0010  06 0001 55  05 0002 000D",
    ),
    scene(
        "pair-nobody",
        "01 0001 10
         04 0004 10 36 5002  04 0004 10 31 5002  04 0004 10 04 5002  04 0004 10 FF 5002
         05 0002 0010  06 0001 00  05 0002 0010  06 0001 00  05 0002 0007
         06 0001 00  06 0001 00  06 0001 00  05 0002 0012",
    ),
    scene(
        "pair-not-freed",
        "01 0001 10  02 0001 08  03 0004 08 5002 64  04 0004 10 08 5002  05 0002 0015",
    ),
    scene(
        "pair-not-freed-failed",
        "01 0001 10  02 0001 08  03 0004 08 5002 64  04 0004 10 08 5002
         05 0002 0010  06 0001 55",
    ),
    scene(
        "pair-last-not-freed",
        "01 0001 10  01 0001 30  02 0001 08  03 0004 08 5002 64
         04 0004 10 FE 5002  04 0004 10 30 5002  04 0004 10 08 5002  04 0004 10 35 5002
         05 0002 002F",
    ),
    scene(
        "pair-refused",
        "01 0001 10  02 0001 08  04 0004 30 08 5002
         04 0004 10 A9 5002  04 0004 10 AA 5002  04 0004 10 10 5002  04 0004 10 15 5002
         04 0004 10 08 A902  04 0015 10 08 5002 ( 64 )*17
         ( 04 0004 10 FE 5002 )*4  04 0004 10 08 5002  05 0002 0026",
    ),
    scene(
        "pair-slave-told-taken",
        "01 0001 10  01 0001 31  03 0004 36 5002 64  04 0004 10 36 5002  04 0004 31 08 5002
         05 0002 0026",
    ),
    scene(
        "pair-slave-told-failed",
        "01 0001 10  01 0001 31  03 0004 36 5002 64  04 0004 10 36 5002  04 0004 31 10 5002
         05 0002 0012  06 0001 65  05 0002 0012",
    ),
    on_a_full_table("pair-64", ""),
    on_a_full_table("pair-65-taken", "04 0004 17 FE 5002  05 0002 0040"),
    on_a_full_table("pair-65-failed", "04 0004 17 60 5002  05 0002 0040"),
    on_a_full_table(
        "pair-66",
        "04 0004 17 FE 5002  04 0004 37 60 5002  05 0002 0040
         04 0004 00 FE 5002  04 0004 00 60 5002  04 0004 07 60 5002  04 0004 17 FE 5002
         05 0002 0080",
    ),
    Scene { name: "pair-100", before: SIXTY_FOUR, hex: THIRTY_SIX },
    scene(
        "pair-every-address",
        "01 0001 10  06 0001 AA
         ( 04 0004 10 ## 5002  05 0002 0006  06 0001 00  06 0001 AA )#00-0F
         ( 04 0004 10 ## 5002  05 0002 0006  06 0001 00  06 0001 AA )#11-14
         ( 04 0004 10 ## 5002  05 0002 0006  06 0001 00  06 0001 AA )#16-A8
         ( 04 0004 10 ## 5002  05 0002 0006  06 0001 00  06 0001 AA )#AB-FF",
    ),
];

const RUNS: &[Run] = &[
    counted("empty", ""),
    run("10:08", "empty", "refused 20"),
    counted("sample", "10 08 taken 1 failed 0"),
    run("10:08", "sample", "10 08 taken 1 failed 0"),
    run("08:10", "sample", "refused 20"),
    run("10:09", "sample", "refused 20"),
    run("30:08", "sample", "refused 20"),
    run("aa:a9", "sample", "refused 20"),
    counted("size-65536", ""),
    run("all", "size-65537", "refused 15 65536"),
    run("10:08", "size-65537", "refused 15 65536"),
    run("all", "form-tag-00", "refused 14 4"),
    run("all", "form-tag-08", "refused 14 4"),
    run("all", "form-tag-ff", "refused 14 0"),
    run("all", "form-01-short", "refused 14 3"),
    run("all", "form-01-long", "refused 14 3"),
    run("all", "form-02-short", "refused 14 3"),
    run("all", "form-02-long", "refused 14 3"),
    run("all", "form-03-short", "refused 14 4"),
    run("all", "form-04-short", "refused 14 4"),
    run("all", "form-05-short", "refused 14 3"),
    run("all", "form-05-long", "refused 14 3"),
    run("all", "form-06-short", "refused 14 3"),
    run("all", "form-06-long", "refused 14 3"),
    run("all", "form-07-long", "refused 14 3"),
    run("all", "form-past-end", "refused 14 4"),
    run("all", "form-past-end-ffff", "refused 14 0"),
    run("all", "form-cut-header-1", "refused 14 3"),
    run("all", "form-cut-header-2", "refused 14 3"),
    run("all", "form-first-of-two", "refused 14 27"),
    run("10:08", "form-first-of-two", "refused 14 27"),
    counted("broadcast-owned", "10 FE taken 1 failed 0"),
    counted("master-to-master", "10 30 taken 1 failed 0"),
    counted("answer-p7", "10 08 taken 1 failed 0"),
    counted("answer-of-a-master", "10 36 taken 1 failed 0"),
    counted("answer-p6", "10 08 taken 1 failed 0"),
    counted("answer-and-part-repeated", "10 08 taken 1 failed 0"),
    counted("ack-late", "10 08 taken 1 failed 0"),
    counted("release-disturbed", "10 08 taken 2 failed 0"),
    counted("limit-telegrams", "10 FE taken 5 failed 0"),
    counted(
        "pair-kinds",
        "10 FE taken 1 failed 0 / 10 30 taken 1 failed 0
         / 10 08 taken 1 failed 0 / 10 35 taken 1 failed 0",
    ),
    counted(
        "pair-two-masters",
        "10 08 taken 1 failed 0 / 10 FE taken 1 failed 0
         / 30 08 taken 2 failed 0 / 30 FE taken 1 failed 0",
    ),
    counted(
        "pair-both-ways",
        "10 31 taken 1 failed 0 / 10 36 taken 1 failed 0
         / 31 10 taken 1 failed 0 / 31 15 taken 1 failed 0",
    ),
    counted(
        "access-p10",
        "30 FE taken 1 failed 0 / F0 FE taken 1 failed 0 / 1F FE taken 1 failed 0",
    ),
    counted("pair-300", "10 FE taken 300 failed 260"),
    counted("owner-failed-1-symbol", "10 08 taken 0 failed 1"),
    counted("owner-failed-1-quiet", "10 08 taken 0 failed 1"),
    counted("owner-failed-1-syn", "10 08 taken 1 failed 1"),
    counted("owner-failed-2", "10 08 taken 0 failed 1"),
    counted("owner-failed-3", "10 08 taken 0 failed 1"),
    counted("owner-failed-4", "10 08 taken 0 failed 1"),
    counted("owner-failed-4-nobody", "10 08 taken 0 failed 1"),
    counted("ack-lost", "10 08 taken 0 failed 1"),
    counted("pair-failed-1-to-5", "10 08 taken 0 failed 5"),
    counted("broadcast-after-failed-owner", "10 FE taken 0 failed 1"),
    counted("pair-broadcast-last-symbol", "10 FE taken 1 failed 1"),
    counted("part-long-after-short", "10 30 taken 2 failed 1"),
    counted("pair-master-fails", "10 30 taken 1 failed 3"),
    counted("answer-failed-4-awaited", "10 08 taken 0 failed 1"),
    counted("answer-failed-4-after-a9", "10 08 taken 0 failed 1"),
    counted("answer-failed-2-wrong-crc", "10 08 taken 0 failed 1"),
    counted("answer-failed-2-symbol", "10 08 taken 0 failed 1"),
    counted("answer-failed-3", "10 08 taken 0 failed 1"),
    counted("answer-repeated-both-damaged", "10 08 taken 0 failed 1"),
    counted("answer-repeated-second-damaged", "10 08 taken 0 failed 1"),
    counted("answer-failed-4-ack", "10 08 taken 0 failed 1"),
    counted("answer-failed-5", "10 08 taken 0 failed 1"),
    counted("answer-failed-5-and-1", "10 08 taken 0 failed 1"),
    counted("over-long-answer-and-1", "10 08 taken 0 failed 1"),
    counted("over-long-answer-ff", "10 08 taken 0 failed 1"),
    counted("slave-failed-1-symbol", "10 08 taken 0 failed 1"),
    counted("slave-failed-1-quiet", "10 08 taken 0 failed 1"),
    counted("answer-nn-heard", "10 08 taken 1 failed 1"),
    counted("broken-pair-four-times", "10 08 taken 0 failed 4"),
    counted("elapsed-slave-after-owner", "10 08 taken 1 failed 2"),
    counted("elapsed-two-owners", "10 52 taken 0 failed 1 / 30 31 taken 1 failed 0"),
    counted("pair-failed-then-taken", "10 08 taken 2 failed 2"),
    counted(
        "pair-not-the-answer-before",
        "10 08 taken 2 failed 0 / 10 52 taken 0 failed 1 / 10 30 taken 0 failed 1",
    ),
    counted(
        "pair-nobody",
        "10 36 taken 0 failed 1 / 10 31 taken 1 failed 0
         / 10 04 taken 1 failed 0 / 10 FF taken 0 failed 1",
    ),
    counted("pair-not-freed", ""),
    run("10:08", "pair-not-freed", "refused 20"),
    counted("pair-not-freed-failed", ""),
    counted(
        "pair-last-not-freed",
        "10 FE taken 1 failed 0 / 10 30 taken 1 failed 0 / 10 08 taken 1 failed 0",
    ),
    run("10:35", "pair-last-not-freed", "refused 20"),
    counted("pair-refused", "10 FE taken 4 failed 0"),
    run("10:08", "pair-refused", "refused 20"),
    counted("broadcast-not-owned", ""),
    counted("slave-failed-3", ""),
    counted("access-foreign-winner", ""),
    counted("access-mark-of-a-loser", "30 FE taken 0 failed 1"),
    counted("pair-slave-told-taken", "10 36 taken 1 failed 0 / 31 08 taken 0 failed 1"),
    counted("pair-slave-told-failed", "10 36 taken 0 failed 1 / 31 10 taken 1 failed 0"),
    full_table("pair-64", "others taken 0 failed 0"),
    run("00:FE", "pair-64", "00 FE taken 1 failed 0"),
    run("07:60", "pair-64", "07 60 taken 0 failed 1"),
    run("f3:ff", "pair-64", "F3 FF taken 1 failed 0"),
    run("fE:00", "pair-64", "refused 20"),
    full_table("pair-65-taken", "others taken 1 failed 0"),
    run("17:FE", "pair-65-taken", "refused 20"),
    full_table("pair-65-failed", "others taken 0 failed 1"),
    run("17:60", "pair-65-failed", "refused 20"),
    Run {
        question: "all",
        name: "pair-66",
        lines: [
            "00 FE taken 2 failed 0 / 00 52 taken 1 failed 0
             / 00 FF taken 1 failed 0 / 00 60 taken 0 failed 2",
            BETWEEN,
            "07 FE taken 1 failed 0 / 07 52 taken 1 failed 0
             / 07 FF taken 1 failed 0 / 07 60 taken 0 failed 2",
            "others taken 2 failed 1",
        ],
    },
    run("00:fe", "pair-66", "00 FE taken 2 failed 0"),
    run("07:60", "pair-66", "07 60 taken 0 failed 2"),
    run("F3:60", "pair-66", "F3 60 taken 0 failed 1"),
    run("17:FE", "pair-66", "refused 20"),
    run("37:60", "pair-66", "refused 20"),
    run("37:FE", "pair-66", "refused 20"),
    full_table("pair-100", "others taken 27 failed 9"),
    run("FF:00", "pair-100", "refused 20"),
    Run {
        question: "all",
        name: "pair-every-address",
        lines: [FIRST_ADDRESSES, "others taken 11 failed 177", "", ""],
    },
    run("10:00", "pair-every-address", "10 00 taken 1 failed 0"),
    run("10:3f", "pair-every-address", "10 3F taken 1 failed 0"),
    run("10:41", "pair-every-address", "10 41 taken 0 failed 1"),
    run("10:42", "pair-every-address", "refused 20"),
    run("10:FE", "pair-every-address", "refused 20"),
    run("10:15", "pair-every-address", "refused 20"),
];

impl Scene {
    fn bytes(&self) -> Vec<u8> {
        [text::bytes(self.before), text::bytes(self.hex)].concat()
    }
}

impl Run {
    fn file(&self) -> String {
        format!("{}.bin", self.name)
    }

    fn bytes(&self) -> Vec<u8> {
        if let Some(own) = SCENES.iter().find(|scene| scene.name == self.name) {
            return own.bytes();
        }
        let of_the_lists = entries().find(|entry| entry.name == self.name);
        text::bytes(of_the_lists.expect("a stored scenario").hex)
    }

    fn expected(&self) -> String {
        text::plain(&self.lines.join("/"))
    }

    fn args(&self) -> Vec<&'static str> {
        match self.question {
            "all" => Vec::new(),
            pair => pair.split(':').collect(),
        }
    }

    fn asked(&self) -> Question {
        counts::question(&self.args()).expect("a question")
    }

    /// What `second counts` prints.
    fn printed(&self) -> String {
        String::from_utf8_lossy(&counts::run(self.asked(), &self.bytes()).0).into_owned()
    }
}

/// Writes the files, the pairs of question and file, and the lines of the list.
/// False if `second counts` prints others, or if the folder has other files.
pub fn store(dir: &Path) -> io::Result<bool> {
    let data = dir.join("data");
    fs::create_dir_all(&data)?;
    let (mut args, mut stdout, mut good) = (String::new(), String::new(), true);
    for run in RUNS {
        let (question, file) = (run.question, run.file());
        if run.printed() != run.expected() {
            println!("{question} {file}: other lines than the list has");
            good = false;
        }
        fs::write(data.join(&file), run.bytes())?;
        args += &format!("{question}\n{file}\n");
        stdout += &format!("== {question} {file}\n{}", run.expected());
    }
    fs::write(dir.join("args"), args)?;
    fs::write(dir.join("stdout"), stdout)?;
    println!("{} pairs written", RUNS.len());
    let used: BTreeSet<String> = RUNS.iter().map(Run::file).collect();
    Ok(same_files("the folder", present(&data)?, used) & good)
}

#[cfg(test)]
mod tests {
    use super::*;
    use crate::count_coverage::CountCoverage;

    #[test]
    fn lines_are_those_of_the_list() {
        for run in RUNS {
            assert_eq!(run.printed(), run.expected(), "{} {}", run.question, run.name);
        }
    }

    #[test]
    fn page_names_every_run_once() {
        let page = include_str!("../../../docs/STORED_COUNTS.md");
        for run in RUNS {
            let row = format!("| {} | `{}` | ", run.question, run.file());
            assert_eq!(page.matches(&row).count(), 1, "{row}");
        }
        let rows = page.lines().filter(|line| line.starts_with("| ") && line.contains(".bin` | "));
        assert_eq!(rows.count(), RUNS.len());
    }

    #[test]
    fn own_names_are_told_from_shared_ones() {
        assert!(SCENES.iter().all(|scene| scene.name.starts_with("pair-")));
        assert!(entries().all(|entry| !entry.name.starts_with("pair-")));
        assert!(SCENES.iter().all(|scene| RUNS.iter().any(|run| run.name == scene.name)));
    }

    #[test]
    fn everything_is_there() {
        let mut total = CountCoverage::default();
        for run in RUNS {
            let (_, mut seen) = counts::run(run.asked(), &run.bytes());
            seen.written_as(&run.args());
            total.add(&seen);
        }
        assert_eq!(total.missing().join(" "), "");
    }
}
