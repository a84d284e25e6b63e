//! The stored runs of `display`: scenarios and their lines, worked out by hand
//! from 01 and 02. How is told in `docs/STORED_DISPLAY.md`, slot by slot.

use super::{entries, present, same_files, text};
use crate::display;
use std::collections::BTreeSet;
use std::fs;
use std::io;
use std::path::Path;

struct Scene {
    name: &'static str,
    /// None: those of the stored scenario of that name.
    hex: Option<&'static str>,
    /// The lines, with slashes between them; `x *3` is three times x.
    lines: &'static str,
}

const fn shared(name: &'static str, lines: &'static str) -> Scene {
    Scene { name, hex: None, lines }
}

const fn scene(name: &'static str, hex: &'static str, lines: &'static str) -> Scene {
    Scene { name, hex: Some(hex), lines }
}

const SCENES: &[Scene] = &[
    shared("empty", ""),
    shared("sample", "0 next nobody *4 / 22 next nobody"),
    shared("size-65536", "0 next nobody"),
    shared("size-65537", "refused 15 65536"),
    shared("form-first-of-two", "refused 14 27"),
    shared("form-04-short", "refused 14 4"),
    shared("form-past-end", "refused 14 4"),
    scene(
        "next-before-first-syn",
        "01 0001 01  01 0001 10  04 0004 01 FE 5002  04 0004 10 FE 5002
         05 0002 0000  06 0001 10  05 0002 0009  05 0002 0001  05 0002 0001",
        "0 next nobody *5 / 1 next nobody / 10 next nobody / 11 next 10 / 12 next nobody",
    ),
    scene(
        "next-owner-with-two",
        "01 0001 10  02 0001 08  ( 04 0004 10 08 5002 )*2
         05 0002 000A  05 0002 0001  05 0002 0005  05 0002 0001  05 0002 0003  05 0002 0001
         05 0002 0001  05 0002 000A",
        "0 next nobody *4 / 10 next 10 / 11 next nobody / 16 next nobody / 17 next nobody
         / 20 next nobody / 21 next 10 / 22 next nobody / 32 next nobody",
    ),
    scene(
        "next-all-masters",
        "02 0001 50  02 0001 51  02 0001 52  02 0001 53  02 0001 54  02 0001 55  02 0001 56
         01 0001 FF  01 0001 F7  01 0001 F3  01 0001 F1  01 0001 F0
         01 0001 7F  01 0001 77  01 0001 73  01 0001 71  01 0001 70
         01 0001 3F  01 0001 37  01 0001 33  01 0001 31  01 0001 30
         01 0001 1F  01 0001 17  01 0001 13  01 0001 11  01 0001 10
         01 0001 0F  01 0001 07  01 0001 03  01 0001 01  01 0001 00
         04 0004 00 FE 5002  04 0004 01 FE 5002  04 0004 03 FE 5002  04 0004 07 FE 5002
         04 0004 0F FE 5002  04 0004 10 FE 5002  04 0004 11 FE 5002  04 0004 13 FE 5002
         04 0004 17 FE 5002  04 0004 1F FE 5002  04 0004 30 FE 5002  04 0004 31 FE 5002
         04 0004 33 FE 5002  04 0004 37 FE 5002  04 0004 3F FE 5002  04 0004 70 FE 5002
         04 0004 71 FE 5002  04 0004 73 FE 5002  04 0004 77 FE 5002  04 0004 7F FE 5002
         04 0004 F0 FE 5002  04 0004 F1 FE 5002  04 0004 F3 FE 5002  04 0004 F7 FE 5002
         04 0004 FF FE 5002
         05 0002 000A  05 0002 0001  05 0002 0006  05 0002 0001  05 0002 0009  05 0002 0001
         ( 05 0002 0007  05 0002 000B )*3  05 0002 0007
         ( 05 0002 0007  05 0002 000B )*3  05 0002 0008  05 0002 000B  05 0002 0007
         ( 05 0002 0007  05 0002 000B )*4  05 0002 0007
         ( 05 0002 0007  05 0002 000B )*4  ( 05 0002 0007 )*6  05 0002 000A",
        "0 next nobody *57
         / 10 next 00 / 11 next nobody / 17 next 10 / 18 next nobody / 27 next nobody
         / 28 next 10 / 35 next 30 / 46 next 30 / 53 next 70 / 64 next 70
         / 71 next F0 / 82 next F0 / 89 next 01 / 96 next 11 / 107 next 11
         / 114 next 31 / 125 next 31 / 132 next 71 / 143 next 71 / 151 next F1 / 162 next F1
         / 169 next 03 / 176 next 13 / 187 next 13 / 194 next 33 / 205 next 33
         / 212 next 73 / 223 next 73 / 230 next F3 / 241 next F3
         / 248 next 07 / 255 next 17 / 266 next 17 / 273 next 37 / 284 next 37
         / 291 next 77 / 302 next 77 / 309 next F7 / 320 next F7
         / 327 next 0F / 334 next 1F / 341 next 3F / 348 next 7F / 355 next FF
         / 362 next nobody / 372 next nobody",
    ),
    scene(
        "next-p9",
        "01 0001 01  01 0001 10  04 0004 01 FE 5002  04 0004 10 FE 5002
         05 0002 000A  05 0002 0001  05 0002 0009  05 0002 0001  05 0002 0001  05 0002 0006
         05 0002 0007",
        "0 next nobody *4 / 10 next 10 / 11 next nobody / 20 next nobody / 21 next 10
         / 22 next nobody / 28 next 01 / 35 next nobody",
    ),
    scene(
        "next-p10",
        "01 0001 1F  01 0001 F0  01 0001 30
         04 0004 1F FE 5002  04 0004 F0 FE 5002  04 0004 30 FE 5002
         05 0002 000A  05 0002 0001  05 0002 000A  05 0002 0007  05 0002 000B  05 0002 0007
         05 0002 0007",
        "0 next nobody *6 / 10 next 30 / 11 next nobody / 21 next 30 / 28 next F0
         / 39 next F0 / 46 next 1F / 53 next nobody",
    ),
    scene(
        "next-p11",
        "01 0001 13  01 0001 31  04 0004 13 FE 5002  04 0004 31 FE 5002
         05 0002 000A  05 0002 0001  05 0002 000A  05 0002 0007  05 0002 0007",
        "0 next nobody *4 / 10 next 31 / 11 next nobody / 21 next 31 / 28 next 13
         / 35 next nobody",
    ),
    scene(
        "next-f0-before-01",
        "01 0001 01  01 0001 F0  04 0004 01 FE 5002  04 0004 F0 FE 5002
         05 0002 000A  05 0002 0001  05 0002 000A  05 0002 0007  05 0002 0007",
        "0 next nobody *4 / 10 next F0 / 11 next nobody / 21 next F0 / 28 next 01
         / 35 next nobody",
    ),
    scene(
        "next-long-runs",
        "01 0001 10  05 0002 0000  05 0002 FFFF  05 0002 0000  04 0004 10 FE 5002
         05 0002 0004  05 0002 0001  05 0002 0000  05 0002 FFFF  05 0002 FFFC
         04 0004 10 FE 5002  05 0002 0001",
        "0 next nobody *2 / 65535 next nobody *3 / 65539 next nobody / 65540 next 10 *2
         / 131075 next nobody / 196607 next nobody / 196607 next 10 / 196608 next nobody",
    ),
    scene(
        "next-queued-in-between",
        "01 0001 30  01 0001 10  01 0001 31  04 0004 30 FE 5002  05 0002 000A
         04 0004 31 FE 5002  04 0004 10 FE 5002  05 0002 0001  05 0002 0006  05 0002 0001
         05 0002 0006  04 0004 10 FE 5002  05 0002 0001  05 0002 0006  05 0002 0007
         04 0004 31 FE 5002  05 0002 0001",
        "0 next nobody *4 / 10 next 30 / 10 next 30 / 10 next 10 / 11 next nobody
         / 17 next 30 / 18 next nobody / 24 next 31 / 24 next 10 / 25 next nobody
         / 31 next 31 / 38 next nobody / 38 next 31 / 39 next nobody",
    ),
    scene(
        "next-queued-too-late",
        "01 0001 10  05 0002 000A  05 0002 0001  04 0004 10 FE 5002  05 0002 0008
         05 0002 0001  05 0002 0001  04 0004 10 FE 5002  05 0002 0006",
        "0 next nobody / 10 next nobody / 11 next nobody *2 / 19 next nobody / 20 next 10
         / 21 next nobody *2 / 27 next 10",
    ),
    scene(
        "next-fifth-telegram",
        "01 0001 10  ( 04 0004 10 FE 5002 )*5  05 0002 000A  04 0004 10 FE 5002
         05 0002 0001  04 0004 10 FE 5002  05 0002 0006  04 0004 10 FE 5002
         ( 05 0002 0007 )*4",
        "0 next nobody *6 / 10 next 10 *2 / 11 next nobody *2 / 17 next 10 *2 / 24 next 10
         / 31 next 10 / 38 next 10 / 45 next nobody",
    ),
    scene(
        "next-refused-calls",
        "01 0001 10  02 0001 08  01 0001 31  04 0004 31 FE 5002  05 0002 000A
         04 0004 08 FE 5002  04 0004 00 FE 5002  04 0004 15 FE 5002
         04 0004 10 A9 5002  04 0004 10 AA 5002  04 0004 10 10 5002  04 0004 10 15 5002
         04 0004 10 FE A902  04 0004 10 FE 50AA  04 0015 10 FE 5002 ( 64 )*17
         01 0001 00  02 0001 09
         03 0003 52 5002  03 0003 10 5002  03 0003 08 A902  03 0014 08 5002 ( 64 )*17
         04 0004 10 FE 5002  05 0002 0001",
        "0 next nobody *4 / 10 next 31 *17 / 10 next 10 / 11 next nobody",
    ),
    scene(
        "next-reply-in-between",
        "01 0001 10  02 0001 08  04 0004 10 08 5002  05 0002 000A
         03 0004 08 5002 64  03 0003 15 5002  05 0002 0000
         03 0003 08 5000  03 0003 08 5001  03 0003 08 5003  03 0003 08 5004
         03 0003 08 5005  03 0003 08 5006  03 0003 08 5007  03 0003 08 5008
         05 0002 0001  05 0002 000B  03 0004 08 5002 65  04 0004 10 08 5002
         03 0004 08 5002 66  05 0002 0001",
        "0 next nobody *3 / 10 next 10 *12 / 11 next nobody / 22 next nobody *2
         / 22 next 10 *2 / 23 next nobody",
    ),
    scene(
        "next-newcomer",
        "01 0001 00  01 0001 10  01 0001 30  01 0001 01
         04 0004 30 FE 5002  04 0004 01 FE 5002  05 0002 000A  05 0002 0001  05 0002 000A
         04 0004 10 FE 5002  04 0004 00 FE 5002  05 0002 0001  05 0002 0006  05 0002 0007
         05 0002 000B",
        "0 next nobody *6 / 10 next 30 / 11 next nobody / 21 next 30 *3 / 22 next nobody
         / 28 next 00 / 35 next 10 / 46 next 10",
    ),
    scene(
        "next-marked-by-disturbance",
        "01 0001 10  01 0001 31  04 0004 10 FE 5002  04 0004 31 FE 5002
         05 0002 000A  06 0001 41  05 0002 000A  05 0002 0001  05 0002 0006  05 0002 0007",
        "0 next nobody *4 / 10 next 10 / 11 next nobody / 21 next 31 / 22 next nobody
         / 28 next 10 / 35 next nobody",
    ),
    scene(
        "next-marks-go-out",
        "01 0001 30  01 0001 10  04 0004 30 FE 5002  04 0004 10 FE 5002
         05 0002 000B  06 0001 AA  06 0001 05  05 0002 000A  05 0002 000A  05 0002 0001",
        "0 next nobody *4 / 11 next nobody / 12 next 30 / 13 next nobody / 23 next nobody
         / 33 next 30 / 34 next nobody",
    ),
    scene(
        "next-nobody-marked",
        "01 0001 30  06 0001 AA  06 0001 10  04 0004 30 FE 5002  05 0002 0009  05 0002 0001
         04 0004 30 FE 5002  05 0002 0009  05 0002 0001  06 0001 01  06 0001 AA  06 0001 AA",
        "0 next nobody / 1 next nobody / 2 next nobody *2 / 11 next nobody / 12 next nobody *2
         / 21 next nobody / 22 next 30 / 23 next nobody / 24 next nobody / 25 next 30",
    ),
    scene(
        "next-two-symbols",
        "01 0001 00  01 0001 10  01 0001 01  04 0004 10 FE 5002  04 0004 01 FE 5002
         05 0002 000B  06 0001 55  04 0004 00 FE 5002  05 0002 000A  05 0002 0001",
        "0 next nobody *5 / 11 next nobody / 12 next nobody *2 / 22 next 00 / 23 next nobody",
    ),
    scene(
        "next-syn-after-syn",
        "01 0001 00  01 0001 10  01 0001 01  04 0004 01 FE 5002  06 0001 AA  06 0001 AA
         04 0004 10 FE 5002  06 0001 AA  05 0002 0001  04 0004 00 FE 5002  06 0001 AA
         06 0001 AA  05 0002 0001",
        "0 next nobody *4 / 1 next 01 / 2 next 01 / 2 next 10 / 3 next 10 / 4 next nobody *2
         / 5 next 10 / 6 next 00 / 7 next nobody",
    ),
    scene(
        "next-disturbed-syn",
        "01 0001 10  04 0004 10 FE 5002  05 0002 0004  06 0001 AA  07 0000  05 0002 0008
         07 0000  05 0002 0009  06 0001 10  05 0002 000A  05 0002 000A  05 0002 0001",
        "0 next nobody *2 / 4 next nobody / 5 next 10 / 6 next nobody / 14 next nobody
         / 15 next nobody / 24 next nobody / 25 next nobody / 35 next nobody / 45 next 10
         / 46 next nobody",
    ),
    scene(
        "next-failed-1",
        "01 0001 10  01 0001 30  ( 04 0004 10 FE 5002 )*2  04 0004 30 FE 5002
         05 0002 000A  05 0002 0001  06 0001 AA  05 0002 0002  06 0001 AA  05 0002 0002
         06 0001 AA  04 0004 10 FE 5002  05 0002 0001  06 0001 55  04 0004 10 FE 5002
         05 0002 000A",
        "0 next nobody *5 / 10 next 10 / 11 next nobody / 12 next 30 / 14 next nobody
         / 15 next 10 / 17 next nobody / 18 next nobody / 18 next 10 / 19 next nobody
         / 20 next nobody *2 / 30 next 10",
    ),
    scene(
        "next-failed-4",
        "01 0001 10  01 0001 30  ( 04 0004 10 08 5002 )*3  04 0004 30 FE 5002
         05 0002 000A  05 0002 000F  05 0002 0001  05 0002 0006  06 0001 AA  05 0002 0006
         06 0001 00  06 0001 01  06 0001 A9  06 0001 AA  05 0002 0001",
        "0 next nobody *6 / 10 next 10 / 25 next nobody / 26 next 10 / 32 next nobody
         / 33 next 10 / 39 next nobody / 40 next nobody / 41 next nobody / 42 next nobody
         / 43 next 30 / 44 next nobody",
    ),
    scene(
        "next-failed-2-3-5",
        "01 0001 10  01 0001 30  ( 04 0004 10 08 5002 )*3  04 0004 30 FE 5002
         05 0002 0010  06 0001 55  05 0002 0001  05 0002 0006  06 0001 FF  05 0002 0006
         06 0001 FF  05 0002 0001  05 0002 0006  06 0001 00  06 0001 11  05 0002 0001
         05 0002 0001",
        "0 next nobody *6 / 16 next nobody / 17 next nobody / 18 next 10 / 24 next nobody
         / 25 next nobody / 31 next nobody / 32 next nobody / 33 next 10 / 39 next nobody
         / 40 next nobody / 41 next nobody / 42 next 30 / 43 next nobody",
    ),
    scene(
        "next-release-lost",
        "01 0001 10  ( 04 0004 10 FE 5002 )*3  05 0002 000A  05 0002 0006  06 0001 55
         05 0002 0009  05 0002 0001  05 0002 0006  07 0000  05 0002 0008  05 0002 0001
         05 0002 0006  05 0002 0001",
        "0 next nobody *4 / 10 next 10 / 16 next nobody / 17 next nobody / 26 next nobody
         / 27 next 10 / 33 next nobody / 34 next nobody / 42 next nobody / 43 next 10
         / 49 next nobody / 50 next nobody",
    ),
];

impl Scene {
    fn file(&self) -> String {
        format!("{}.bin", self.name)
    }

    fn bytes(&self) -> Vec<u8> {
        let of_the_lists = || entries().find(|entry| entry.name == self.name);
        text::bytes(self.hex.unwrap_or_else(|| of_the_lists().expect("a stored scenario").hex))
    }

    /// What `second display` prints.
    fn printed(&self) -> String {
        String::from_utf8_lossy(&display::run(&self.bytes()).0).into_owned()
    }
}

/// Writes the files, their order and the lines of the list. False if `second
/// display` prints others, or if the folder has other files.
pub fn store(dir: &Path) -> io::Result<bool> {
    let data = dir.join("data");
    fs::create_dir_all(&data)?;
    let (mut args, mut stdout, mut good) = (String::new(), String::new(), true);
    for scene in SCENES {
        let file = scene.file();
        if scene.printed() != text::plain(scene.lines) {
            println!("{file}: other lines than the list has");
            good = false;
        }
        fs::write(data.join(&file), scene.bytes())?;
        args += &format!("{file}\n");
        stdout += &format!("== {file}\n{}", text::plain(scene.lines));
    }
    fs::write(dir.join("args"), args)?;
    fs::write(dir.join("stdout"), stdout)?;
    println!("{} files written", SCENES.len());
    let listed: BTreeSet<String> = SCENES.iter().map(Scene::file).collect();
    Ok(same_files("the folder", present(&data)?, listed) & good)
}

#[cfg(test)]
mod tests {
    use super::*;
    use crate::display_coverage::DisplayCoverage;

    #[test]
    fn lines_are_those_of_the_list() {
        for scene in SCENES {
            assert_eq!(scene.printed(), text::plain(scene.lines), "{}", scene.name);
        }
    }

    #[test]
    fn page_names_every_file_once() {
        let page = include_str!("../../../docs/STORED_DISPLAY.md");
        for scene in SCENES {
            let row = format!("| `{}` | ", scene.file());
            assert_eq!(page.matches(&row).count(), 1, "{row}");
        }
    }

    #[test]
    fn own_names_are_told_from_shared_ones() {
        let named = |scene: &Scene| scene.name.starts_with("next-");
        assert!(SCENES.iter().all(|scene| scene.hex.is_some() == named(scene)));
    }

    #[test]
    fn everything_is_there() {
        let mut total = DisplayCoverage::default();
        SCENES.iter().for_each(|scene| total.add(&display::run(&scene.bytes()).1));
        assert_eq!(total.missing().join(" "), "");
    }
}
