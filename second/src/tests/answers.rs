//! Answers of attached slaves and of absent ones, as the owner sees them.

use super::*;

/// The sample's stations: the answer 01 64 FF takes slots 18 to 20.
fn sample(rest: &[Op<'static>]) -> Vec<Op<'static>> {
    let mut ops = vec![
        master(0x10),
        slave(0x08),
        reply(&[0x08, 0x50, 0x02, 0x64]),
        queue(&[0x10, 0x08, 0x50, 0x02]),
    ];
    ops.extend_from_slice(rest);
    ops
}

#[track_caller]
fn expect_sample(rest: &[Op<'static>], lines: &[&str]) {
    let start = ["11 10 owns", "17 10 taken", "17 08 given 10 50 02 00"];
    expect(&sample(rest), &[&start[..], lines].concat());
}

/// Master 10 alone; 00 is heard in 17, the answer begins in 18.
#[track_caller]
fn expect_lone(rest: &[Op<'static>], lines: &[&str]) {
    let mut ops = vec![master(0x10), queue(&[0x10, 0x08, 0x50, 0x02]), run(16), heard(0x00)];
    ops.extend_from_slice(rest);
    expect(&ops, &[&["11 10 owns", "17 10 taken"], lines].concat());
}

#[test]
fn slave_failed_1_on_another_symbol() {
    // 19 heard as 65; 20 to 28 quiet; 29 AUTO-SYN ends the owner's wait.
    let lines = ["19 08 failed 1", "29 10 failed 4", "29 10 free 18", "end 29"];
    expect_sample(&[run(18), heard(0x65), run(10)], &lines);
}

#[test]
fn slave_failed_1_on_quiet() {
    let lines = ["19 08 failed 1", "28 10 failed 4", "28 10 free 17", "end 28"];
    expect_sample(&[run(18), quiet(), run(9)], &lines);
}

#[test]
fn slave_failed_1_on_syn() {
    let lines = ["19 10 failed 4", "19 10 free 8", "19 08 failed 1", "end 19"];
    expect_sample(&[run(18), heard(0xAA)], &lines);
}

#[test]
fn both_failed_2() {
    let lines = ["21 10 failed 2", "21 08 failed 2", "22 10 free 11", "end 22"];
    expect_sample(&[run(20), heard(0x05), run(1)], &lines);
}

#[test]
fn both_failed_3() {
    // 21 FF, 22 to 24 again, 25 FF.
    let lines = ["25 10 failed 3", "25 08 failed 3", "26 10 free 15", "end 26"];
    expect_sample(&[run(20), heard(0xFF), run(3), heard(0xFF), run(1)], &lines);
}

#[test]
fn both_failed_4() {
    let lines = ["21 10 failed 4", "21 10 free 10", "21 08 failed 4", "end 21"];
    expect_sample(&[run(20), heard(0xAA)], &lines);
    // The owner's 00 lost: 21 to 29 quiet, AUTO-SYN in 30.
    let lines = ["30 10 failed 4", "30 10 free 19", "30 08 failed 4", "end 30"];
    expect_sample(&[run(20), quiet(), run(9)], &lines);
}

#[test]
fn attempts_are_counted_for_each_part() {
    // One FF for the part, one for the answer: both go through. 17 FF, 18 to
    // 23, 24 taken; 25 to 27 answer; 28 FF; 29 to 31; 32 acknowledged.
    let ops = sample(&[run(16), heard(0xFF), run(10), heard(0xFF), run(5)]);
    let lines = [
        "11 10 owns",
        "24 10 taken",
        "24 08 given 10 50 02 00",
        "32 08 taken",
        "32 10 answer 08 01 64",
        "33 10 free 22",
        "end 33",
    ];
    expect(&ops, &lines);
}

#[test]
fn answer_is_fixed_when_its_slot_begins() {
    // Changed after 00: the new data (01 65 FE) go out.
    let changed = reply(&[0x08, 0x50, 0x02, 0x65]);
    let lines = ["21 08 taken", "21 10 answer 08 01 65", "22 10 free 11", "end 22"];
    expect_sample(&[run(17), changed, run(5)], &lines);
    // Changed later, even before a repetition: the old ones.
    let lines = ["25 08 taken", "25 10 answer 08 01 64", "26 10 free 15", "end 26"];
    expect_sample(&[run(18), changed, run(2), heard(0xFF), changed, run(5)], &lines);
}

#[test]
fn disturbed_first_slot_fixes_the_answer_too() {
    // 18 is heard as the 01 it would be; the entry is changed only then.
    let changed = reply(&[0x08, 0x50, 0x02, 0x65]);
    let lines = ["21 08 taken", "21 10 answer 08 01 64", "22 10 free 11", "end 22"];
    expect_sample(&[run(17), heard(0x01), changed, run(4)], &lines);
}

#[test]
fn slave_of_a_master_answers() {
    // 10 36 50 02 00 6F; 36 is the slave address of 31.
    let ops = [
        master(0x31),
        master(0x10),
        reply(&[0x36, 0x50, 0x02, 0x64]),
        queue(&[0x10, 0x36, 0x50, 0x02]),
        run(22),
    ];
    let lines = [
        "11 10 owns",
        "17 10 taken",
        "17 31 given 10 50 02 00",
        "21 31 taken",
        "21 10 answer 36 01 64",
        "22 10 free 11",
        "end 22",
    ];
    expect(&ops, &lines);
}

#[test]
fn owner_failed_5_on_a_bad_pair() {
    let lines = ["20 10 failed 5", "21 10 free 10", "end 21"];
    expect_lone(&[heard(0x01), heard(0xA9), heard(0x05), run(1)], &lines);
    // In the place of the check symbol too.
    let lines = ["20 10 failed 5", "21 10 free 10", "end 21"];
    expect_lone(&[heard(0x00), heard(0xA9), heard(0xA9), run(1)], &lines);
    // Quiet between the two is skipped.
    let lines = ["21 10 failed 5", "22 10 free 11", "end 22"];
    expect_lone(&[heard(0x01), heard(0xA9), quiet(), heard(0xFF), run(1)], &lines);
}

#[test]
fn slave_and_owner_fail_in_one_slot() {
    // Answer 01 A9 00 ..: the 00 of the pair is heard as 05 in slot 20.
    let ops = [
        master(0x10),
        slave(0x08),
        reply(&[0x08, 0x50, 0x02, 0xA9]),
        queue(&[0x10, 0x08, 0x50, 0x02]),
        run(19),
        heard(0x05),
        run(1),
    ];
    let lines = [
        "11 10 owns",
        "17 10 taken",
        "17 08 given 10 50 02 00",
        "20 10 failed 5",
        "20 08 failed 1",
        "21 10 free 10",
        "end 21",
    ];
    expect(&ops, &lines);
}

#[test]
fn owner_failed_4_on_syn_after_a9() {
    let lines = ["20 10 failed 4", "20 10 free 9", "end 20"];
    expect_lone(&[heard(0x01), heard(0xA9), heard(0xAA)], &lines);
}

#[test]
fn ack_heard_after_a_wrong_check() {
    // 18, 19: 00 01; the owner's FF in 20 is heard as 00.
    let lines = ["20 10 failed 2", "21 10 free 10", "end 21"];
    expect_lone(&[heard(0x00), heard(0x01), heard(0x00), run(1)], &lines);
}

#[test]
fn owner_failed_5_on_an_over_long_answer() {
    // 18: NN; 19: the owner's SYN, whatever is heard. AA alone is failed 4.
    for count in 0x11..=0xFF {
        for nineteenth in [run(1), heard(0x00), heard(0xFF), heard(0x55), quiet()] {
            let ops = [heard(count), nineteenth];
            match count {
                0xAA => expect_lone(&ops, &["18 10 failed 4", "18 10 free 7", "end 19"]),
                _ => expect_lone(&ops, &["18 10 failed 5", "19 10 free 8", "end 19"]),
            }
        }
    }
}

#[test]
fn owner_failed_5_on_an_over_long_repeated_answer() {
    // 18, 19 damaged, 20 the owner's FF; NN in 21, SYN in 22.
    for count in [0x11, 0x12, 0xA9, 0xFF] {
        let rest = [heard(0x00), heard(0x01), run(1), heard(count), run(1)];
        expect_lone(&rest, &["21 10 failed 5", "22 10 free 11", "end 22"]);
    }
    // 18, 19 sound, FF heard in 20: nothing is handed out either.
    let rest = [heard(0x00), heard(0x00), heard(0xFF), heard(0x11), run(1)];
    expect_lone(&rest, &["21 10 failed 5", "22 10 free 11", "end 22"]);
}

#[test]
fn owner_sends_syn_after_an_over_long_answer() {
    // The SYN in 19 admits: the next telegram goes in 20.
    let next = queue(&[0x10, 0x08, 0x50, 0x03]);
    let lines = ["18 10 failed 5", "19 10 free 8", "20 10 owns", "end 20"];
    expect_lone(&[heard(0x11), next, run(2)], &lines);
}

#[test]
fn slave_hears_its_own_count_as_over_long() {
    // NN 01 in 18 heard as 17; then, after FF in 21, in 22.
    let lines = ["18 10 failed 5", "18 08 failed 1", "19 10 free 8", "end 19"];
    expect_sample(&[run(17), heard(0x11), run(1)], &lines);
    let lines = ["22 10 failed 5", "22 08 failed 1", "23 10 free 12", "end 23"];
    expect_sample(&[run(20), heard(0xFF), heard(0x11), run(1)], &lines);
}

#[test]
fn both_readings_of_an_answer_damaged() {
    // 18, 19 damaged; 20 FF; 21, 22 damaged; 23 FF; 24 SYN: nothing handed out.
    let rest = [heard(0x00), heard(0x01), run(1), heard(0x00), heard(0x01), run(2)];
    expect_lone(&rest, &["23 10 failed 3", "24 10 free 13", "end 24"]);
    // The last FF heard as 00 does not help.
    let rest = [heard(0x00), heard(0x01), run(1), heard(0x00), heard(0x01), heard(0x00), run(1)];
    expect_lone(&rest, &["23 10 failed 2", "24 10 free 13", "end 24"]);
}

#[test]
fn second_reading_of_an_answer_is_checked_too() {
    // 18, 19 sound, but FF is heard in 20; 21, 22 damaged; 00 heard in 23.
    let rest = [heard(0x00), heard(0x00), heard(0xFF), heard(0x00), heard(0x01), heard(0x00)];
    expect_lone(&rest, &["23 10 failed 2", "end 23"]);
}

#[test]
fn slave_that_fell_silent_does_not_repeat() {
    // 18 heard as 00: 08 is out. 19 heard 01: wrong. 20 FF of the owner. The
    // slave stays silent: 21 to 29 quiet, 30 AUTO-SYN.
    let lines = ["18 08 failed 1", "30 10 failed 4", "30 10 free 19", "end 30"];
    expect_sample(&[run(17), heard(0x00), heard(0x01), run(11)], &lines);
}

#[test]
fn check_symbol_ff_is_no_acknowledgement() {
    // P6 read from an absent slave, quiet between its symbols.
    let rest = [heard(0x01), quiet(), heard(0x64), heard(0xFF), run(2)];
    expect_lone(&rest, &["22 10 answer 08 01 64", "23 10 free 12", "end 23"]);
}

#[test]
fn bare_syn_is_no_check_symbol_of_an_answer() {
    // 9B xor 31 is AA: the check symbol of 01 31.
    let lines = ["20 10 failed 4", "20 10 free 9", "end 20"];
    expect_lone(&[heard(0x01), heard(0x31), heard(0xAA)], &lines);
    let rest = [heard(0x01), heard(0x31), heard(0xA9), heard(0x01), run(2)];
    expect_lone(&rest, &["22 10 answer 08 01 31", "23 10 free 12", "end 23"]);
}
