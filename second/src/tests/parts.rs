//! The master part: its acknowledgement, its repetition, its failures.

use super::*;

/// Master 10 with the part of P1 for the absent slave 08.
fn lone(rest: &[Op<'static>]) -> Vec<Op<'static>> {
    let mut ops = vec![master(0x10), queue(&[0x10, 0x08, 0x50, 0x02])];
    ops.extend_from_slice(rest);
    ops
}

#[test]
fn sample_of_01() {
    let file = [
        0x01, 0x00, 0x01, 0x10, 0x02, 0x00, 0x01, 0x08, 0x03, 0x00, 0x04, 0x08, 0x50, 0x02, 0x64,
        0x04, 0x00, 0x04, 0x10, 0x08, 0x50, 0x02, 0x05, 0x00, 0x02, 0x00, 0x16,
    ];
    let wanted = "ebus bench\n11 10 owns\n17 10 taken\n17 08 given 10 50 02 00\n21 08 taken\n\
                  21 10 answer 08 01 64\n22 10 free 11\nend 22\n";
    assert_eq!(printed_for(&file), wanted);
}

#[test]
fn owner_failed_1_on_another_symbol_quiet_and_syn() {
    for disturbance in [heard(0x77), quiet(), heard(0xAA)] {
        let ops = lone(&[run(12), disturbance, run(1)]);
        expect(&ops, &["11 10 owns", "13 10 failed 1", "13 10 free 2", "end 14"]);
    }
}

#[test]
fn owner_failed_1_in_the_last_symbol() {
    let ops = lone(&[run(15), heard(0x39), run(3)]);
    expect(&ops, &["11 10 owns", "16 10 failed 1", "16 10 free 5", "end 19"]);
}

#[test]
fn owner_failed_2_on_another_acknowledgement() {
    let ops = lone(&[run(16), heard(0x05), run(1)]);
    expect(&ops, &["11 10 owns", "17 10 failed 2", "18 10 free 7", "end 18"]);
}

#[test]
fn owner_failed_3_after_the_repetition() {
    // 17 FF, 18 to 23 the part again, 24 FF, 25 SYN.
    let ops = lone(&[run(16), heard(0xFF), run(6), heard(0xFF), run(1)]);
    expect(&ops, &["11 10 owns", "24 10 failed 3", "25 10 free 14", "end 25"]);
}

#[test]
fn owner_failed_1_in_the_repetition() {
    // The first symbol of the repetition is QQ and no contest any more.
    let ops = lone(&[run(16), heard(0xFF), heard(0x30), run(1)]);
    expect(&ops, &["11 10 owns", "18 10 failed 1", "18 10 free 7", "end 19"]);
}

#[test]
fn owner_failed_4_on_syn() {
    let ops = lone(&[run(26)]);
    expect(&ops, &["11 10 owns", "26 10 failed 4", "26 10 free 15", "end 26"]);
    let ops = lone(&[run(18), heard(0xAA)]);
    expect(&ops, &["11 10 owns", "19 10 failed 4", "19 10 free 8", "end 19"]);
}

#[test]
fn quiet_before_the_acknowledgement_is_skipped() {
    // 17 and 18 quiet; 19 decides.
    let ops = lone(&[run(18), heard(0x05), run(1)]);
    expect(&ops, &["11 10 owns", "19 10 failed 2", "20 10 free 9", "end 20"]);
}

#[test]
fn reader_acknowledges_only_once() {
    // 17 heard quiet instead of the 00 of 08: nothing more until AUTO-SYN,
    // after 17 to 25, in 26.
    let ops =
        [master(0x10), slave(0x08), queue(&[0x10, 0x08, 0x50, 0x02]), run(16), quiet(), run(9)];
    expect(&ops, &["11 10 owns", "26 10 failed 4", "26 10 free 15", "end 26"]);
}

#[test]
fn what_the_reader_sent_no_longer_counts() {
    // 17 quiet, then 00 in 18: taken and given all the same.
    let ops = [
        master(0x10),
        slave(0x08),
        queue(&[0x10, 0x08, 0x50, 0x02]),
        run(16),
        quiet(),
        heard(0x00),
        run(4),
    ];
    let lines = [
        "11 10 owns",
        "18 10 taken",
        "18 08 given 10 50 02 00",
        "21 08 taken",
        "21 10 answer 08 00",
        "22 10 free 11",
        "end 22",
    ];
    expect(&ops, &lines);
}

#[test]
fn repeated_part_is_taken() {
    // 17 FF instead of 00; 18 to 23 again; 24 the reader's own 00; empty
    // answer in 25 and 26; 27 acknowledged; 28 SYN.
    let ops = [
        master(0x10),
        slave(0x08),
        queue(&[0x10, 0x08, 0x50, 0x02]),
        run(16),
        heard(0xFF),
        run(11),
    ];
    let lines = [
        "11 10 owns",
        "24 10 taken",
        "24 08 given 10 50 02 00",
        "27 08 taken",
        "27 10 answer 08 00",
        "28 10 free 17",
        "end 28",
    ];
    expect(&ops, &lines);
}

#[test]
fn part_to_a_master_gets_no_answer() {
    // 10 31 50 02 00 6E: slots 11 to 16.
    let ops = [master(0x31), master(0x10), queue(&[0x10, 0x31, 0x50, 0x02]), run(18)];
    let lines = ["11 10 owns", "17 10 taken", "17 31 given 10 50 02 00", "18 10 free 7", "end 18"];
    expect(&ops, &lines);
}

#[test]
fn released_whatever_is_heard() {
    // The SYN of slot 18 heard as 00 or quiet: free, and silent until SYN.
    let setup = [master(0x31), master(0x10), queue(&[0x10, 0x31, 0x50, 0x02])];
    let lines = ["11 10 owns", "17 10 taken", "17 31 given 10 50 02 00", "18 10 free 7"];
    let ops = [&setup[..], &[run(17), heard(0x00), queue(&[0x10, 8, 5, 2]), run(11)]].concat();
    // 19 to 27 quiet, 28 AUTO-SYN, 29 owns.
    expect(&ops, &[&lines[..], &["29 10 owns", "end 29"]].concat());
    let ops = [&setup[..], &[run(17), quiet(), queue(&[0x10, 8, 5, 2]), run(10)]].concat();
    // 18 to 26 quiet, 27 AUTO-SYN, 28 owns.
    expect(&ops, &[&lines[..], &["28 10 owns", "end 28"]].concat());
}

#[test]
fn next_telegram_right_after_the_release() {
    let ops = [
        master(0x31),
        master(0x10),
        queue(&[0x10, 0x31, 0x50, 0x02]),
        queue(&[0x10, 0x31, 0x50, 0x02]),
        run(26),
    ];
    let lines = [
        "11 10 owns",
        "17 10 taken",
        "17 31 given 10 50 02 00",
        "18 10 free 7",
        "19 10 owns",
        "25 10 taken",
        "25 31 given 10 50 02 00",
        "26 10 free 7",
        "end 26",
    ];
    expect(&ops, &lines);
}

#[test]
fn broadcast_with_owner() {
    // 10 FE 50 02 00 FD: slots 11 to 16, no acknowledgement, 17 SYN.
    let ops = [slave(0x08), master(0x10), master(0x30), queue(&[0x10, 0xFE, 0x50, 0x02]), run(17)];
    let lines = [
        "11 10 owns",
        "16 10 taken",
        "16 08 given 10 50 02 00",
        "16 30 given 10 50 02 00",
        "17 10 free 6",
        "end 17",
    ];
    expect(&ops, &lines);
}

#[test]
fn broadcast_that_loses_its_owner() {
    // SB is heard as 02 but NN as 01: the owner is out. Data 77, check 3A
    // are heard and all but the owner hand it out.
    let ops = [
        slave(0x08),
        master(0x10),
        master(0x30),
        queue(&[0x10, 0xFE, 0x50, 0x02]),
        run(14),
        heard(0x01),
        heard(0x77),
        heard(0x3A),
    ];
    let lines = [
        "11 10 owns",
        "15 10 failed 1",
        "15 10 free 4",
        "17 08 given 10 50 02 01 77",
        "17 30 given 10 50 02 01 77",
        "end 17",
    ];
    expect(&ops, &lines);
}

#[test]
fn target_disturbed_to_the_failed_owner() {
    // ZZ heard as 15, the slave address of 10 itself, which is silent now:
    // the rest of a sound part (10 15 50 02 00 62) moves nobody.
    let mut ops = lone(&[run(11), heard(0x15)]);
    ops.extend(all_heard(&[0x50, 0x02, 0x00, 0x62, 0x00]));
    expect(&ops, &["11 10 owns", "12 10 failed 1", "12 10 free 1", "end 17"]);
}

#[test]
fn part_with_pairs() {
    // P2: 8 symbols 11 to 18, acknowledged in 19; empty answer 20, 21; 22.
    let ops = [master(0x10), slave(0x08), queue(&[0x10, 0x08, 0x50, 0x02, 0xAA]), run(23)];
    let lines = [
        "11 10 owns",
        "19 10 taken",
        "19 08 given 10 50 02 01 AA",
        "22 08 taken",
        "22 10 answer 08 00",
        "23 10 free 12",
        "end 23",
    ];
    expect(&ops, &lines);
    // P4: a check symbol of AA goes out as a pair.
    let ops = [master(0x10), slave(0x08), queue(&[0x10, 0x08, 0x50, 0x02, 0x7E]), run(19)];
    let lines = ["11 10 owns", "19 10 taken", "19 08 given 10 50 02 01 7E", "end 19"];
    expect(&ops, &lines);
}
