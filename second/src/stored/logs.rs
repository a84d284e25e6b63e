//! The stored runs of `wirelog`: a length, a stored scenario and the lines,
//! worked out by hand from 02 and the scenario's bench lines. How is told in
//! `docs/STORED_LOGS.md`, record by record.

use super::{entries, present, same_files, text, Entry};
use crate::wirelog;
use std::collections::BTreeSet;
use std::fs;
use std::io;
use std::path::Path;

struct Pair {
    length: &'static str,
    /// The scenario's name in the lists of this module.
    name: &'static str,
    /// The lines, with slashes between them.
    lines: &'static str,
}

const fn pair(length: &'static str, name: &'static str, lines: &'static str) -> Pair {
    Pair { length, name, lines }
}

const SAMPLE: &str = "01 00 05 00 00 00 0B 10
    / 02 00 05 00 00 00 11 10
    / 05 00 09 00 00 00 11 08 10 50 02 00
    / 02 00 05 00 00 00 15 08
    / 06 00 08 00 00 00 15 10 08 01 64
    / 04 00 09 00 00 00 16 10 00 00 00 0B";

/// The second transfer, wherever the buffer's end falls.
const DISTURBED: &str = "01 00 05 00 00 00 21 10
    / 02 00 05 00 00 00 27 10
    / 05 00 09 00 00 00 27 08 10 50 03 00
    / 02 00 05 00 00 00 2A 08
    / 06 00 07 00 00 00 2A 10 08 00
    / 04 00 09 00 00 00 2B 10 00 00 00 0A";

/// The first transfer's last two records and the second transfer, wherever the
/// buffer's end falls.
const IN_REPEAT: &str = "03 00 08 00 00 00 18 10 05 01 07
    / 04 00 09 00 00 00 19 10 00 00 00 0E
    / 01 00 05 00 00 00 1A 10
    / 02 00 05 00 00 00 20 10
    / 03 00 08 00 00 00 29 10 05 04 FF
    / 04 00 09 00 00 00 2A 10 00 00 00 10";

const PAIRS: &[Pair] = &[
    pair("63", "sample", "refused 16"),
    pair("64", "sample", SAMPLE),
    pair("4096", "sample", SAMPLE),
    pair("65536", "sample", SAMPLE),
    pair("65537", "sample", "refused 16"),
    pair("64", "form-first-of-two", "refused 14 27"),
    pair("63", "form-first-of-two", "refused 16"),
    pair("64", "size-65537", "refused 15 65536"),
    pair("65537", "size-65537", "refused 16"),
    pair(
        "68",
        "access-p8",
        "05 00 09 00 00 00 10 01 00 50 02 00
         / 04 00 09 00 00 00 11 00 00 00 00 06
         / 01 00 05 00 00 00 12 01
         / 02 00 05 00 00 00 17 01
         / 05 00 09 00 00 00 17 00 01 50 02 00
         / 04 00 09 00 00 00 18 01 00 00 00 06",
    ),
    pair("68", "release-disturbed", DISTURBED),
    pair("69", "release-disturbed", DISTURBED),
    pair(
        "72",
        "release-disturbed",
        "04 00 09 00 00 00 16 10 00 00 00 0B
         / 01 00 05 00 00 00 21 10
         / 02 00 05 00 00 00 27 10
         / 05 00 09 00 00 00 27 08 10 50 03 00
         / 02 00 05 00 00 00 2A 08
         / 06 00 07 00 00 00 2A 10 08 00
         / 04 00 09 00 00 00 2B 10 00 00 00 0A",
    ),
    pair(
        "115",
        "release-disturbed",
        "02 00 05 00 00 00 11 10
         / 05 00 09 00 00 00 11 08 10 50 02 00
         / 02 00 05 00 00 00 15 08
         / 06 00 08 00 00 00 15 10 08 01 64
         / 04 00 09 00 00 00 16 10 00 00 00 0B
         / 01 00 05 00 00 00 21 10
         / 02 00 05 00 00 00 27 10
         / 05 00 09 00 00 00 27 08 10 50 03 00
         / 02 00 05 00 00 00 2A 08
         / 06 00 07 00 00 00 2A 10 08 00
         / 04 00 09 00 00 00 2B 10 00 00 00 0A",
    ),
    pair(
        "121",
        "part-long-after-short",
        "03 00 06 00 00 00 11 10 02
         / 04 00 09 00 00 00 12 10 00 00 00 07
         / 01 00 05 00 00 00 13 10
         / 02 00 05 00 00 00 19 10
         / 04 00 09 00 00 00 1A 10 00 00 00 07
         / 01 00 05 00 00 00 1B 10
         / 02 00 05 00 00 00 21 10
         / 04 00 09 00 00 00 22 10 00 00 00 07
         / 01 00 05 00 00 00 23 10
         / 02 00 05 00 00 00 39 10
         / 05 00 19 00 00 00 39 08 10 50 02 10 00 01 02 03 04 05 06 07 08 09 0A 0B 0C 0D 0E 0F",
    ),
    pair(
        "64",
        "part-long-after-short",
        "02 00 05 00 00 00 21 10
         / 04 00 09 00 00 00 22 10 00 00 00 07
         / 01 00 05 00 00 00 23 10
         / 02 00 05 00 00 00 39 10
         / 05 00 19 00 00 00 39 08 10 50 02 10 00 01 02 03 04 05 06 07 08 09 0A 0B 0C 0D 0E 0F",
    ),
    pair(
        "64",
        "limit-stations",
        "05 00 09 00 00 00 10 53 00 50 02 00
         / 05 00 09 00 00 00 10 54 00 50 02 00
         / 05 00 09 00 00 00 10 55 00 50 02 00
         / 05 00 09 00 00 00 10 56 00 50 02 00
         / 04 00 09 00 00 00 11 00 00 00 00 06",
    ),
    pair(
        "83",
        "elapsed-two-owners",
        "01 00 05 00 00 00 1C 30
         / 02 00 05 00 00 00 22 30
         / 04 00 09 00 00 00 23 30 00 00 00 07
         / 01 00 05 00 00 00 24 30
         / 02 00 05 00 00 00 3A 30
         / 05 00 19 00 00 00 3A 08 30 50 02 10 00 01 02 03 04 05 06 07 08 09 0A 0B 0C 0D 0E 0F",
    ),
    pair(
        "84",
        "elapsed-two-owners",
        "04 00 09 00 00 00 1B 10 00 00 00 10
         / 01 00 05 00 00 00 1C 30
         / 02 00 05 00 00 00 22 30
         / 04 00 09 00 00 00 23 30 00 00 00 07
         / 01 00 05 00 00 00 24 30
         / 02 00 05 00 00 00 3A 30
         / 05 00 19 00 00 00 3A 08 30 50 02 10 00 01 02 03 04 05 06 07 08 09 0A 0B 0C 0D 0E 0F",
    ),
    pair(
        "64",
        "elapsed-quiet-answer",
        "01 00 05 00 00 00 0B 10
         / 02 00 05 00 00 00 11 10
         / 06 00 08 00 00 01 0A 10 08 01 64
         / 04 00 09 00 00 01 0B 10 00 00 01 00",
    ),
    pair(
        "64",
        "elapsed-65536",
        "01 00 05 00 00 00 0B 10
         / 03 00 06 00 01 00 0A 10 02
         / 04 00 09 00 01 00 0B 10 00 01 00 00",
    ),
    pair(
        "64",
        "answer-failed-5",
        "01 00 05 00 00 00 0B 10
         / 02 00 05 00 00 00 11 10
         / 03 00 08 00 00 00 14 10 05 01 05
         / 04 00 09 00 00 00 15 10 00 00 00 0A",
    ),
    pair(
        "64",
        "answer-failed-5-and-1",
        "01 00 05 00 00 00 0B 10
         / 02 00 05 00 00 00 11 10
         / 05 00 09 00 00 00 11 08 10 50 02 00
         / 03 00 08 00 00 00 14 10 05 01 05
         / 03 00 06 00 00 00 14 08 01
         / 04 00 09 00 00 00 15 10 00 00 00 0A",
    ),
    pair(
        "64",
        "broken-pair-last-data",
        "01 00 05 00 00 00 0B 10
         / 02 00 05 00 00 00 11 10
         / 03 00 08 00 00 00 16 10 05 03 02
         / 04 00 09 00 00 00 17 10 00 00 00 0C",
    ),
    pair(
        "64",
        "broken-pair-a9-a9",
        "01 00 05 00 00 00 0B 10
         / 02 00 05 00 00 00 11 10
         / 03 00 08 00 00 00 14 10 05 01 A9
         / 04 00 09 00 00 00 15 10 00 00 00 0A",
    ),
    pair(
        "64",
        "broken-pair-in-repeat-and-1",
        "01 00 05 00 00 00 0B 10
         / 02 00 05 00 00 00 11 10
         / 05 00 09 00 00 00 11 08 10 50 02 00
         / 03 00 08 00 00 00 1B 10 05 02 A9
         / 03 00 06 00 00 00 1B 08 01
         / 04 00 09 00 00 00 1C 10 00 00 00 11",
    ),
    pair(
        "64",
        "broken-pair-quiet",
        "01 00 05 00 00 00 0B 10
         / 02 00 05 00 00 00 11 10
         / 03 00 08 00 00 00 27 10 05 02 03
         / 04 00 09 00 00 00 28 10 00 00 00 1D",
    ),
    pair(
        "64",
        "broken-pair-greatest",
        "01 00 05 00 00 00 0B 10
         / 02 00 05 00 00 00 11 10
         / 03 00 08 00 00 00 34 10 05 21 02
         / 04 00 09 00 00 00 35 10 00 00 00 2A",
    ),
    pair(
        "64",
        "answer-failed-4-after-a9",
        "01 00 05 00 00 00 0B 10
         / 02 00 05 00 00 00 11 10
         / 03 00 06 00 00 00 14 10 04
         / 04 00 09 00 00 00 14 10 00 00 00 09",
    ),
    pair(
        "74",
        "over-long-answer-a9-aa",
        "01 00 05 00 00 00 0B 10
         / 02 00 05 00 00 00 11 10
         / 03 00 06 00 00 00 12 10 05
         / 04 00 09 00 00 00 13 10 00 00 00 08
         / 01 00 05 00 00 00 14 10
         / 02 00 05 00 00 00 1A 10
         / 03 00 06 00 00 00 1B 10 04
         / 04 00 09 00 00 00 1B 10 00 00 00 07",
    ),
    pair(
        "64",
        "broken-pair-owner-failed-1",
        "01 00 05 00 00 00 0B 10
         / 03 00 06 00 00 00 11 10 01
         / 04 00 09 00 00 00 11 10 00 00 00 06
         / 01 00 05 00 00 00 1D 10",
    ),
    pair("64", "reading-ends-silent", "05 00 09 00 00 00 63 08 10 50 02 00"),
    pair("64", "broken-pair-in-repeated-part", "01 00 05 00 00 00 1B 30"),
    pair(
        "64",
        "broken-pair-broadcast",
        "05 00 09 00 00 00 16 30 10 50 02 00
         / 05 00 09 00 00 00 16 08 10 50 02 00",
    ),
    pair(
        "78",
        "broken-pair-crc",
        "01 00 05 00 00 00 0B 10
         / 02 00 05 00 00 00 11 10
         / 03 00 08 00 00 00 15 10 05 02 FF
         / 04 00 09 00 00 00 16 10 00 00 00 0B
         / 01 00 05 00 00 00 17 10
         / 02 00 05 00 00 00 1D 10
         / 03 00 08 00 00 00 20 10 05 01 02
         / 04 00 09 00 00 00 21 10 00 00 00 0A",
    ),
    pair(
        "77",
        "broken-pair-behind-pair",
        "02 00 05 00 00 00 11 10
         / 03 00 08 00 00 00 16 10 05 03 05
         / 04 00 09 00 00 00 17 10 00 00 00 0C
         / 01 00 05 00 00 00 18 10
         / 02 00 05 00 00 00 1E 10
         / 03 00 08 00 00 00 25 10 05 05 18
         / 04 00 09 00 00 00 26 10 00 00 00 0E",
    ),
    pair("64", "broken-pair-in-repeat", IN_REPEAT),
    pair("65", "broken-pair-in-repeat", IN_REPEAT),
    pair("66", "broken-pair-in-repeat", IN_REPEAT),
    pair(
        "71",
        "broken-pair-four-times",
        "02 00 05 00 00 00 27 10
         / 03 00 08 00 00 00 2A 10 05 01 FE
         / 04 00 09 00 00 00 2B 10 00 00 00 0A
         / 01 00 05 00 00 00 2C 10
         / 02 00 05 00 00 00 32 10
         / 03 00 08 00 00 00 35 10 05 01 FF
         / 04 00 09 00 00 00 36 10 00 00 00 0A",
    ),
];

impl Pair {
    fn entry(&self) -> &'static Entry {
        entries().find(|entry| entry.name == self.name).expect("a stored scenario")
    }

    /// What `second log` prints.
    fn printed(&self) -> String {
        let length = wirelog::length(self.length).expect("a length of digits");
        let (out, _) = wirelog::run(length, &text::bytes(self.entry().hex));
        String::from_utf8_lossy(&out).into_owned()
    }
}

/// Writes the files, the pairs of length and file, and the lines of the list.
/// False if `second log` prints others, or if the folder has other files.
pub fn store(dir: &Path) -> io::Result<bool> {
    let data = dir.join("data");
    fs::create_dir_all(&data)?;
    let (mut args, mut stdout, mut good) = (String::new(), String::new(), true);
    for pair in PAIRS {
        let (length, file) = (pair.length, pair.entry().file());
        if pair.printed() != text::plain(pair.lines) {
            println!("{length} {file}: other lines than the list has");
            good = false;
        }
        fs::write(data.join(&file), text::bytes(pair.entry().hex))?;
        args += &format!("{length}\n{file}\n");
        stdout += &format!("== {length} {file}\n{}", text::plain(pair.lines));
    }
    fs::write(dir.join("args"), args)?;
    fs::write(dir.join("stdout"), stdout)?;
    println!("{} pairs written", PAIRS.len());
    let used: BTreeSet<String> = PAIRS.iter().map(|pair| pair.entry().file()).collect();
    Ok(same_files("the folder", present(&data)?, used) & good)
}

#[cfg(test)]
mod tests {
    use super::*;

    #[test]
    fn lines_are_those_of_the_list() {
        for pair in PAIRS {
            assert_eq!(pair.printed(), text::plain(pair.lines), "{} {}", pair.length, pair.name);
        }
    }

    #[test]
    fn page_names_every_pair_once() {
        let page = include_str!("../../../docs/STORED_LOGS.md");
        for pair in PAIRS {
            let row = format!("| {} | `{}.bin` |", pair.length, pair.name);
            assert_eq!(page.matches(&row).count(), 1, "{row}");
        }
    }
}
