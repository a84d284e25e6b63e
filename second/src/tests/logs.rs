//! The log: its limits, its records and what goes. Sizes: owns and taken 8
//! bytes, failed 9, or 11 with a broken pair's numbers, free 12, given 12 and
//! the data, answer 10 and the data.

use super::*;
use crate::bus::Bus;
use crate::event::{Event, Tenure, Word};
use crate::log::{record, Log};
use crate::maker;
use crate::wirelog;

fn bytes_of(ops: &[Op]) -> Vec<u8> {
    let mut bytes = Vec::new();
    ops.iter().for_each(|op| scenario::write(&mut bytes, op));
    bytes
}

fn logged(length: u64, bytes: &[u8]) -> String {
    String::from_utf8(wirelog::run(length, bytes).0).unwrap()
}

#[track_caller]
fn expect_log(length: u64, ops: &[Op], lines: &[&str]) {
    let wanted: String = lines.iter().map(|line| format!("{line}\n")).collect();
    assert_eq!(logged(length, &bytes_of(ops)), wanted);
}

const TELEGRAM: [u8; 4] = [0x10, 0x08, 0x50, 0x02];
const REPLY: [u8; 4] = [0x08, 0x50, 0x02, 0x64];

fn sample() -> [Op<'static>; 5] {
    [master(0x10), slave(0x08), reply(&REPLY), queue(&TELEGRAM), run(22)]
}

const SAMPLE: [&str; 6] = [
    "01 00 05 00 00 00 0B 10",
    "02 00 05 00 00 00 11 10",
    "05 00 09 00 00 00 11 08 10 50 02 00",
    "02 00 05 00 00 00 15 08",
    "06 00 08 00 00 00 15 10 08 01 64",
    "04 00 09 00 00 00 16 10 00 00 00 0B",
];

#[test]
fn the_sample() {
    expect_log(4096, &sample(), &SAMPLE);
}

#[test]
fn limits_of_the_length() {
    expect_log(64, &sample(), &SAMPLE);
    expect_log(65_536, &sample(), &SAMPLE);
    for length in [0, 63, 65_537, u64::MAX] {
        expect_log(length, &sample(), &["refused 16"]);
    }
}

#[test]
fn length_before_form() {
    assert_eq!(logged(64, &[0x07, 0, 0, 0x08]), "refused 14 3\n");
    assert_eq!(logged(63, &[0x07, 0, 0, 0x08]), "refused 16\n");
    let too_long = vec![0; 65_537];
    assert_eq!(logged(65_536, &too_long), "refused 15 65536\n");
    assert_eq!(logged(65_537, &too_long), "refused 16\n");
}

#[test]
fn lengths_as_text() {
    assert_eq!(wirelog::length("64"), Some(64));
    assert_eq!(wirelog::length("00064"), Some(64));
    // 2 to the 64th and 64: no number of the type, and outside the limits.
    assert_eq!(wirelog::length("18446744073709551680"), Some(u64::MAX));
    for text in ["", "+64", "-64", " 64", "64 ", "0x40", "6 4", "64.0", "٦٤"] {
        assert_eq!(wirelog::length(text), None, "{text:?}");
    }
}

#[test]
fn nothing_told_nothing_held() {
    assert_eq!(logged(64, &[]), "");
    // Calls turned down and slots that tell nobody anything leave no record.
    expect_log(64, &[master(0x02), slave(0x08), run(500), master(0x10)], &[]);
}

#[test]
fn failed_has_its_number() {
    // Nobody at 08: the generator's SYN in 26.
    let ops = [master(0x10), queue(&TELEGRAM), run(26)];
    let lines = [
        "01 00 05 00 00 00 0B 10",
        "03 00 06 00 00 00 1A 10 04",
        "04 00 09 00 00 00 1A 10 00 00 00 0F",
    ];
    expect_log(64, &ops, &lines);
}

#[test]
fn broken_pair_has_its_numbers() {
    // 02 A9 01 A9 05 in 18 to 22, then, in 31, NN 17, which has none.
    let mut ops = vec![master(0x10), queue(&TELEGRAM), queue(&TELEGRAM), run(16), heard(0x00)];
    ops.extend(all_heard(&[0x02, 0xA9, 0x01, 0xA9, 0x05]));
    ops.extend([run(7), heard(0x00), heard(0x11)]);
    let lines = [
        "01 00 05 00 00 00 0B 10",
        "02 00 05 00 00 00 11 10",
        "03 00 08 00 00 00 16 10 05 03 05",
        "04 00 09 00 00 00 17 10 00 00 00 0C",
        "01 00 05 00 00 00 18 10",
        "02 00 05 00 00 00 1E 10",
        "03 00 06 00 00 00 1F 10 05",
    ];
    // 8, 8, 11, 12, 8, 8, 9: 64 bytes.
    expect_log(64, &ops, &lines);
}

#[test]
fn filled_to_the_last_byte() {
    // Twice 8, 8 and 12, then 8 and 8: 72 bytes. The last 12 make 84.
    let to_nobody = [0x10, 0x30, 0x50, 0x02];
    let mut ops = vec![master(0x10)];
    ops.extend([queue(&to_nobody); 3]);
    ops.push(run(10));
    // QQ in the first of six slots, 00 in the seventh, release in the eighth.
    (0..3).for_each(|_| ops.extend([run(6), heard(0x00), run(1)]));
    let all = [
        "01 00 05 00 00 00 0B 10",
        "02 00 05 00 00 00 11 10",
        "04 00 09 00 00 00 12 10 00 00 00 07",
        "01 00 05 00 00 00 13 10",
        "02 00 05 00 00 00 19 10",
        "04 00 09 00 00 00 1A 10 00 00 00 07",
        "01 00 05 00 00 00 1B 10",
        "02 00 05 00 00 00 21 10",
        "04 00 09 00 00 00 22 10 00 00 00 07",
    ];
    expect_log(84, &ops, &all);
    // 76 without the first, 68 without two, then 56.
    expect_log(83, &ops, &all[1..]);
    expect_log(76, &ops, &all[1..]);
    expect_log(75, &ops, &all[2..]);
    expect_log(68, &ops, &all[2..]);
    expect_log(67, &ops, &all[3..]);
    // Without the last release nothing goes from 72.
    expect_log(72, &ops[..ops.len() - 1], &all[..8]);
}

/// Records of given sizes, told apart by their last byte.
fn noted(length: u64, sizes: &[usize]) -> Vec<u8> {
    let mut log = Log::set_up(length).ok().unwrap();
    for (place, &size) in sizes.iter().enumerate() {
        let mut record = vec![0; size];
        record[size - 1] = place as u8;
        log.note(record);
    }
    log.held().iter().map(|record| record[record.len() - 1]).collect()
}

#[test]
fn many_gone_for_one() {
    // 64 and 28: four of 8 go for it; with three gone it would be 68.
    assert_eq!(noted(64, &[8, 8, 8, 8, 8, 8, 8, 8, 28]), [4, 5, 6, 7, 8]);
    assert_eq!(noted(67, &[8, 8, 8, 8, 8, 8, 8, 8, 28]), [4, 5, 6, 7, 8]);
    assert_eq!(noted(68, &[8, 8, 8, 8, 8, 8, 8, 8, 28]), [3, 4, 5, 6, 7, 8]);
    // The same with records as they come: owns, taken, failed, free; owns,
    // taken, free; owns, taken, given. 81 bytes and 28; with three gone 84.
    let sizes = [8, 8, 9, 12, 8, 8, 12, 8, 8, 28];
    assert_eq!(noted(83, &sizes), [4, 5, 6, 7, 8, 9]);
    assert_eq!(noted(84, &sizes), [3, 4, 5, 6, 7, 8, 9]);
    // Whole records go, though less room would have done.
    assert_eq!(noted(64, &[28, 28, 8, 8]), [1, 2, 3]);
    assert_eq!(noted(64, &[28, 28, 8]), [0, 1, 2]);
}

#[test]
fn slot_number_in_four_bytes() {
    let mut bus = Bus::new();
    bus.attach_master(0x10).unwrap();
    bus.queue(TELEGRAM, &[]).unwrap();
    bus.set_slot_number(0x0102_0304 - 11);
    bus.run(11);
    let event = bus.events()[0];
    assert_eq!(record(0x10, &event), [1, 0, 5, 1, 2, 3, 4, 0x10]);
}

#[test]
fn elapsed_slots_in_four_bytes() {
    let free =
        |tenure| Event { slot: 0x0102_0304, tenure, station: 0, word: Word::Free([0x10, 0x08]) };
    let held = record(0x10, &free(Tenure::Held(0x0506_0708)));
    assert_eq!(held, [4, 0, 9, 1, 2, 3, 4, 0x10, 5, 6, 7, 8]);
}

#[test]
fn longest_record() {
    let sizes = |seed| wirelog::sizes(&maker::make(seed));
    assert_eq!((0..2000).flat_map(sizes).max(), Some(28));
    assert_eq!((0..2000).flat_map(sizes).min(), Some(8));
}
