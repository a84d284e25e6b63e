//! What failed 5 carries for a broken pair (E6): the position of the A9 and the
//! symbol after it. A line here is the bench line of a failed event, then the two
//! numbers if it carries them, the position in decimal.

use super::*;
use crate::bus::Bus;
use crate::event::{Failure, Word};
use crate::intake::{BrokenPair, Fed, Intake};
use crate::lines::push_event;

/// Every failed event of the operations.
fn failures(ops: &[Op]) -> Vec<String> {
    let mut bus = Bus::new();
    ops.iter().for_each(|op| bench::operate(&mut bus, op).unwrap());
    let mut lines = Vec::new();
    for event in bus.events() {
        let Word::Failed(_, failure) = event.word else { continue };
        let mut out = Vec::new();
        push_event(&mut out, bus.table(), event);
        let line = String::from_utf8(out).unwrap().trim_end().to_string();
        lines.push(match failure {
            Failure::BrokenPair(pair) => format!("{line}: {} {:02X}", pair.position, pair.symbol),
            _ => line,
        });
    }
    lines
}

/// Master 10 alone; 00 is heard in 17, the answer begins in 18.
#[track_caller]
fn expect_lone(rest: &[Op<'static>], lines: &[&str]) {
    let start = [master(0x10), queue(&[0x10, 0x08, 0x50, 0x02]), run(16), heard(0x00)];
    assert_eq!(failures(&[&start, rest].concat()), lines);
}

#[track_caller]
fn expect_heard(symbols: &[u8], line: &str) {
    expect_lone(&all_heard(symbols), &[line]);
}

/// All that is no second half of a pair, and no SYN.
fn wrong_halves() -> impl Iterator<Item = u8> {
    (0x02..=0xFF).filter(|&symbol| symbol != 0xAA)
}

#[test]
fn every_wrong_symbol() {
    // 18 NN, 19 A9, 20 the symbol; in the place of data and of the CRC.
    for symbol in wrong_halves() {
        let line = format!("20 10 failed 5: 1 {symbol:02X}");
        expect_heard(&[0x01, 0xA9, symbol], &line);
        expect_heard(&[0x00, 0xA9, symbol], &line);
    }
}

#[test]
fn in_the_last_data_byte() {
    expect_heard(&[0x03, 0x11, 0x22, 0xA9, 0x02], "22 10 failed 5: 3 02");
}

#[test]
fn in_the_check_symbol() {
    expect_heard(&[0x01, 0x64, 0xA9, 0xFF], "21 10 failed 5: 2 FF");
    expect_heard(&[0x01, 0xA9, 0x01, 0xA9, 0xFA], "22 10 failed 5: 3 FA");
    // 31 has the CRC AA, which goes as A9 01.
    expect_heard(&[0x01, 0x31, 0xA9, 0x02], "21 10 failed 5: 2 02");
}

#[test]
fn behind_sound_pairs() {
    expect_heard(&[0x02, 0xA9, 0x01, 0xA9, 0x05], "22 10 failed 5: 3 05");
    expect_heard(&[0x02, 0xA9, 0x00, 0xA9, 0xA9], "22 10 failed 5: 3 A9");
    let apart = [0x05, 0xA9, 0x00, 0x11, 0xA9, 0x01, 0x22, 0xA9, 0xFF];
    expect_heard(&apart, "26 10 failed 5: 7 FF");
    // 00 and 01 alone are data like any other.
    expect_heard(&[0x04, 0x00, 0x01, 0x00, 0xA9, 0x10], "23 10 failed 5: 4 10");
}

#[test]
fn a9_after_a9() {
    // The second A9 begins no pair of its own.
    expect_heard(&[0x01, 0xA9, 0xA9], "20 10 failed 5: 1 A9");
    expect_heard(&[0x01, 0xA9, 0xA9, 0x01], "20 10 failed 5: 1 A9");
}

#[test]
fn every_position() {
    for before in 0..=16 {
        let plain = [&[0x10][..], &[0x64; 16][..before], &[0xA9, 0x02]].concat();
        expect_heard(&plain, &format!("{} 10 failed 5: {} 02", 20 + before, 1 + before));
        let pairs = [&[0x10][..], &[0xA9, 0x01].repeat(before), &[0xA9, 0x02]].concat();
        expect_heard(&pairs, &format!("{} 10 failed 5: {} 02", 20 + 2 * before, 1 + 2 * before));
    }
}

#[test]
fn greatest_position() {
    // NN in 18, sixteen pairs in 19 to 50, A9 in 51.
    let ops = [&[0x10][..], &[0xA9, 0x00].repeat(16), &[0xA9, 0x02]].concat();
    expect_heard(&ops, "52 10 failed 5: 33 02");
}

#[test]
fn repeated_answer_counts_from_its_own_first() {
    // 18 to 20 damaged, 21 the owner's FF, 22 NN.
    let damaged = [heard(0x01), heard(0x64), heard(0xFE), run(1)];
    let short = [heard(0x01), heard(0xA9), heard(0x07)];
    expect_lone(&[&damaged[..], &short].concat(), &["24 10 failed 5: 1 07"]);
    let long = all_heard(&[0x06, 0x11, 0xA9, 0x01, 0x22, 0xA9, 0x02]);
    expect_lone(&[&damaged[..], &long].concat(), &["28 10 failed 5: 5 02"]);
    // 18 to 21 sound, with a pair; FF heard in 22, 23 NN.
    let sound = all_heard(&[0x01, 0xA9, 0x01, 0xFA, 0xFF]);
    expect_lone(&[&sound[..], &short].concat(), &["25 10 failed 5: 1 07"]);
    // The part repeated before: the answer begins in 25.
    let start = [master(0x10), queue(&[0x10, 0x08, 0x50, 0x02]), run(16), heard(0xFF)];
    let again = [run(6), heard(0x00), heard(0x01), heard(0xA9), heard(0x07)];
    assert_eq!(failures(&[&start[..], &again].concat()), ["27 10 failed 5: 1 07"]);
}

#[test]
fn quiet_slots_do_not_count() {
    // NN in 20, 11 in 22, A9 in 26, 03 in 39; the SYN in 36 heard as quiet.
    let mut ops = vec![quiet(), quiet(), heard(0x02), quiet(), heard(0x11)];
    ops.extend([quiet(), quiet(), quiet(), heard(0xA9)]);
    ops.extend([quiet(); 12]);
    ops.push(heard(0x03));
    expect_lone(&ops, &["39 10 failed 5: 2 03"]);
    // 20 to 28 quiet by themselves; the generator's SYN in 29 is heard as 05.
    let ops = [heard(0x01), heard(0xA9), run(9), heard(0x05)];
    expect_lone(&ops, &["29 10 failed 5: 1 05"]);
    // Inside a sound pair before it: 19 A9, 21 00, 22 A9.
    let ops = [heard(0x02), heard(0xA9), quiet(), heard(0x00), heard(0xA9), heard(0x05)];
    expect_lone(&ops, &["23 10 failed 5: 3 05"]);
}

#[test]
fn each_transfer_counts_anew() {
    // P1 takes 11 to 16 and 22 to 27.
    let mut ops = vec![master(0x10)];
    ops.extend([queue(&[0x10, 0x08, 0x50, 0x02]); 2]);
    ops.extend([run(16), heard(0x00), heard(0x01), heard(0xA9), heard(0x02), run(7)]);
    ops.extend([heard(0x00), heard(0x00), heard(0xA9), heard(0xFE)]);
    assert_eq!(failures(&ops), ["20 10 failed 5: 1 02", "31 10 failed 5: 1 FE"]);
}

#[test]
fn syn_is_no_broken_pair() {
    expect_heard(&[0x01, 0xA9, 0xAA], "20 10 failed 4");
    expect_heard(&[0x00, 0xA9, 0xAA], "20 10 failed 4");
    expect_heard(&[0x02, 0xA9, 0x01, 0xA9, 0xAA], "22 10 failed 4");
}

#[test]
fn over_long_has_no_numbers() {
    for count in (0x11..=0xFF).filter(|&count| count != 0xAA) {
        expect_heard(&[count], "18 10 failed 5");
        // 05 comes too late to make a pair of A9.
        expect_heard(&[count, 0x05], "18 10 failed 5");
    }
    let repeated = [heard(0x00), heard(0x01), run(1), heard(0xA9)];
    expect_lone(&repeated, &["21 10 failed 5"]);
}

#[test]
fn slave_that_sends_it_has_no_numbers() {
    let start = [
        master(0x10),
        slave(0x08),
        reply(&[0x08, 0x50, 0x02, 0x64, 0xA9]),
        queue(&[0x10, 0x08, 0x50, 0x02]),
    ];
    let told = |rest: &[Op<'static>]| failures(&[&start, rest].concat());
    // 02 64 A9 00 BE in 18 to 22: 00 heard as 05; 64 heard as A9, then A9.
    let lines = ["21 10 failed 5: 2 05", "21 08 failed 1"];
    assert_eq!(told(&[run(20), heard(0x05)]), lines);
    let lines = ["19 08 failed 1", "20 10 failed 5: 1 A9"];
    assert_eq!(told(&[run(18), heard(0xA9), heard(0xA9)]), lines);
    // FF in 23: the same again in 24 to 28.
    let lines = ["27 10 failed 5: 2 A9", "27 08 failed 1"];
    assert_eq!(told(&[run(22), heard(0xFF), run(3), heard(0xA9)]), lines);
}

#[test]
fn parts_tell_nobody() {
    let stations = [master(0x30), slave(0x08), heard(0xAA)];
    for target in [0x08, 0x30, 0x35, 0xFE] {
        for symbol in wrong_halves() {
            let head = [0x10, target, 0x50, 0x02];
            for tail in [[0x01, 0xA9, symbol], [0x00, 0xA9, symbol]] {
                let part = all_heard(&[&head[..], &tail].concat());
                let ops = [&stations[..], &part, &[run(20)]].concat();
                expect(&ops, &["end 28"]);
            }
        }
    }
    // An owner's own pair, A9 in 16: another symbol than sent is failed 1.
    let ops = [master(0x10), slave(0x08), queue(&[0x10, 0x08, 0x50, 0x02, 0xAA])];
    assert_eq!(failures(&[&ops[..], &[run(16), heard(0x05)]].concat()), ["17 10 failed 1"]);
}

/// What the last of the symbols did to a reading.
fn last_fed(mut intake: Intake, symbols: &[u8]) -> Fed {
    let (&last, before) = symbols.split_last().unwrap();
    assert!(before.iter().all(|&symbol| matches!(intake.feed(symbol), Fed::More | Fed::Target)));
    intake.feed(last)
}

#[test]
fn a_reading_says_it_of_every_part() {
    let broken = |position, symbol| Fed::BrokenPair(BrokenPair { position, symbol });
    let part = |tail: &[u8]| {
        last_fed(Intake::master_part(), &[&[0x10, 0x08, 0x50, 0x02][..], tail].concat())
    };
    assert_eq!(part(&[0x01, 0xA9, 0x05]), broken(5, 0x05));
    assert_eq!(part(&[0x00, 0xA9, 0x38]), broken(5, 0x38));
    assert_eq!(part(&[0x02, 0xA9, 0x01, 0xA9, 0xA9]), broken(7, 0xA9));
    let longest = [&[0x10][..], &[0xA9, 0x01].repeat(16), &[0xA9, 0x02]].concat();
    assert_eq!(part(&longest), broken(37, 0x02));
    assert_eq!(last_fed(Intake::answer(), &longest), broken(33, 0x02));
    assert_eq!(part(&[0xA9]), Fed::OverLong);
    assert_eq!(last_fed(Intake::master_part(), &[0x10, 0x08, 0xA9]), Fed::Misplaced);
}
