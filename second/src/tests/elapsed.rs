//! What every event carries besides its word: the slot and, from owns to free,
//! the slots since that owner's owns line (E4). A line here is the bench line,
//! then the elapsed slots of the event, which the bench prints for free alone.

use super::*;
use crate::bus::Bus;
use crate::event::Tenure;
use crate::lines::push_event;
use crate::transfer::Transfer;
use crate::wire::Wire;

/// Every event of the operations on a bus whose first slot comes after `slot`.
fn carried_from(slot: u32, ops: &[Op]) -> Vec<String> {
    let mut bus = Bus::new();
    bus.set_slot_number(slot);
    ops.iter().for_each(|op| bench::operate(&mut bus, op).unwrap());
    let shown = bus.events().iter().map(|event| {
        let mut line = Vec::new();
        push_event(&mut line, bus.table(), event);
        format!("{}: {}", String::from_utf8(line).unwrap().trim_end(), event.elapsed())
    });
    shown.collect()
}

#[track_caller]
fn expect_carried(ops: &[Op], lines: &[&str]) {
    assert_eq!(carried_from(0, ops), lines);
}

/// The stations of the sample; P1 takes 11 to 16, its answer 18 to 20.
fn sample(rest: &[Op<'static>]) -> Vec<Op<'static>> {
    let mut ops = vec![
        master(0x10),
        slave(0x08),
        reply(&[0x08, 0x50, 0x02, 0x64]),
        queue(&[0x10, 0x08, 0x50, 0x02]),
    ];
    ops.extend_from_slice(rest);
    ops
}

const TAKEN: [&str; 3] = ["11 10 owns: 0", "17 10 taken: 6", "17 08 given 10 50 02 00: 6"];

#[track_caller]
fn expect_taken(rest: &[Op<'static>], lines: &[&str]) {
    expect_carried(&sample(rest), &[&TAKEN[..], lines].concat());
}

#[test]
fn sample_for_all_stations() {
    let lines = ["21 08 taken: 10", "21 10 answer 08 01 64: 10", "22 10 free 11: 11"];
    expect_taken(&[run(22)], &lines);
    // Slot by slot, and with what is sent given as heard.
    expect_taken(&[run(1); 22], &lines);
    expect_taken(&[run(18), heard(0x64), heard(0xFF), run(2)], &lines);
}

#[test]
fn broadcast_for_all_stations() {
    // 10 FE 50 02 00 FD: slots 11 to 16.
    let ops = [slave(0x08), master(0x10), master(0x30), queue(&[0x10, 0xFE, 0x50, 0x02]), run(17)];
    let lines = [
        "11 10 owns: 0",
        "16 10 taken: 5",
        "16 08 given 10 50 02 00: 5",
        "16 30 given 10 50 02 00: 5",
        "17 10 free 6: 6",
    ];
    expect_carried(&ops, &lines);
}

#[test]
fn slot_of_the_free_line_is_inside() {
    // Failed and free in one slot, the slave's line after the owner's.
    let lines = ["21 10 failed 4: 10", "21 10 free 10: 10", "21 08 failed 4: 10"];
    expect_taken(&[run(20), heard(0xAA)], &lines);
    let lines = ["19 10 failed 4: 8", "19 10 free 8: 8", "19 08 failed 1: 8"];
    expect_taken(&[run(18), heard(0xAA)], &lines);
    let lines = ["11 10 owns: 0", "12 10 failed 1: 1", "12 10 free 1: 1"];
    for twelfth in [quiet(), heard(0x09), heard(0xAA)] {
        expect_carried(&sample(&[run(11), twelfth]), &lines);
    }
}

#[test]
fn failed_before_free() {
    let lines = ["21 10 failed 2: 10", "21 08 failed 2: 10", "22 10 free 11: 11"];
    expect_taken(&[run(20), heard(0x05), run(1)], &lines);
    // The slave is out in 19; the owner reads on: 65 in 19, FE in 20.
    let lines = ["19 08 failed 1: 8", "21 10 answer 08 01 65: 10", "22 10 free 11: 11"];
    expect_taken(&[run(18), heard(0x65), heard(0xFE), run(2)], &lines);
}

#[test]
fn repetitions_count() {
    // 17 FF, 18 to 23 again, 24 taken; 25 to 27, 28 FF, 29 to 31, 32.
    let ops = sample(&[run(16), heard(0xFF), run(10), heard(0xFF), run(5)]);
    let lines = [
        "11 10 owns: 0",
        "24 10 taken: 13",
        "24 08 given 10 50 02 00: 13",
        "32 08 taken: 21",
        "32 10 answer 08 01 64: 21",
        "33 10 free 22: 22",
    ];
    expect_carried(&ops, &lines);
}

#[test]
fn quiet_slots_count() {
    // 17 to 36 heard as quiet, the generator's SYN in 26 and 36 too.
    let mut ops = sample(&[run(16)]);
    ops.extend([quiet(); 20]);
    ops.extend([heard(0x00), run(5)]);
    let lines = [
        "11 10 owns: 0",
        "37 10 taken: 26",
        "37 08 given 10 50 02 00: 26",
        "41 08 taken: 30",
        "41 10 answer 08 01 64: 30",
        "42 10 free 31: 31",
    ];
    expect_carried(&ops, &lines);
}

#[test]
fn quiet_slots_passed_at_once_count() {
    // Nobody at 08: 17 to 25 quiet, SYN in 26.
    let lone = [master(0x10), queue(&[0x10, 0x08, 0x50, 0x02])];
    let lines = ["11 10 owns: 0", "26 10 failed 4: 15", "26 10 free 15: 15"];
    expect_carried(&[&lone[..], &[run(26)]].concat(), &lines);
    expect_carried(&[&lone[..], &[run(20), run(6)]].concat(), &lines);
    expect_carried(&[&lone[..], &[run(1); 26]].concat(), &lines);
    // The SYN in 26 heard as quiet: 27 to 35, SYN in 36.
    let lines = ["11 10 owns: 0", "36 10 failed 4: 25", "36 10 free 25: 25"];
    expect_carried(&[&lone[..], &[run(25), quiet(), run(10)]].concat(), &lines);
}

#[test]
fn long_wait_for_an_answer() {
    // 00 in 17, 70,000 quiet slots, 00 00 in 70,018 and 70,019.
    let mut ops = vec![master(0x10), queue(&[0x10, 0x08, 0x50, 0x02]), run(16), heard(0x00)];
    ops.extend([quiet(); 70_000]);
    ops.extend([heard(0x00), heard(0x00), run(2)]);
    let lines = [
        "11 10 owns: 0",
        "17 10 taken: 6",
        "70020 10 answer 08 00: 70009",
        "70021 10 free 70010: 70010",
    ];
    expect_carried(&ops, &lines);
}

#[test]
fn owner_left_and_slave_goes_on() {
    // NN heard as 01 in 15, then 64 and B0: 08 takes it in 18 and answers in
    // 19 to 21. 22 is 00, FF or SYN to it.
    let left = [run(14), heard(0x01), heard(0x64), heard(0xB0), run(4)];
    let lines = |last| {
        let told = ["15 10 failed 1: 4", "15 10 free 4: 4", "18 08 given 10 50 02 01 64: 0"];
        [&["11 10 owns: 0"], &told[..], last].concat()
    };
    let with = |rest: &[Op<'static>]| sample(&[&left[..], rest].concat());
    expect_carried(&with(&[heard(0x00)]), &lines(&["22 08 taken: 0"]));
    expect_carried(&with(&[heard(0xAA)]), &lines(&["22 08 failed 4: 0"]));
    let twice = [heard(0xFF), run(3), heard(0xFF)];
    expect_carried(&with(&twice), &lines(&["26 08 failed 3: 0"]));
    // The next count begins with the next owns line: 23 to 31 quiet, SYN.
    let next = [heard(0x00), queue(&[0x10, 0x30, 0x50, 0x02]), run(16), heard(0x00), run(1)];
    let last = ["22 08 taken: 0", "33 10 owns: 0", "39 10 taken: 6", "40 10 free 7: 7"];
    expect_carried(&with(&next), &lines(&last));
}

#[test]
fn owner_left_and_broadcast_goes_on() {
    // NN heard as 01 in 15, then 77 and 3A.
    let ops = [
        slave(0x08),
        master(0x10),
        master(0x30),
        queue(&[0x10, 0xFE, 0x50, 0x02]),
        run(14),
        heard(0x01),
        heard(0x77),
        heard(0x3A),
    ];
    let lines = [
        "11 10 owns: 0",
        "15 10 failed 1: 4",
        "15 10 free 4: 4",
        "17 08 given 10 50 02 01 77: 0",
        "17 30 given 10 50 02 01 77: 0",
    ];
    expect_carried(&ops, &lines);
}

#[test]
fn nobody_owned() {
    // SYN in 1, P1 in 2 to 7, the answer 01 64 FF in 9 to 11.
    let mut ops = vec![slave(0x08), reply(&[0x08, 0x50, 0x02, 0x64]), heard(0xAA)];
    ops.extend(all_heard(&[0x10, 0x08, 0x50, 0x02, 0x00, 0x38]));
    ops.extend([run(4), heard(0x00)]);
    expect_carried(&ops, &["8 08 given 10 50 02 00: 0", "12 08 taken: 0"]);
}

#[test]
fn each_owner_counts_for_itself() {
    // 10 to nobody: 11 to 26. 30 to FE: 27 to 33. 10 again, at once: 34, 35.
    let ops = [
        master(0x10),
        master(0x30),
        queue(&[0x10, 0x08, 0x50, 0x02]),
        run(11),
        queue(&[0x30, 0xFE, 0x50, 0x02]),
        run(22),
        queue(&[0x10, 0x08, 0x50, 0x02]),
        run(1),
        quiet(),
    ];
    let lines = [
        "11 10 owns: 0",
        "26 10 failed 4: 15",
        "26 10 free 15: 15",
        "27 30 owns: 0",
        "32 30 taken: 5",
        "32 10 given 30 50 02 00: 5",
        "33 30 free 6: 6",
        "34 10 owns: 0",
        "35 10 failed 1: 1",
        "35 10 free 1: 1",
    ];
    expect_carried(&ops, &lines);
}

#[test]
fn across_the_wrap() {
    // Slot 16 has the number 4294967295, slot 17 the number 0.
    let lines = [
        "4294967290 10 owns: 0",
        "0 10 taken: 6",
        "0 08 given 10 50 02 00: 6",
        "4 08 taken: 10",
        "4 10 answer 08 01 64: 10",
        "5 10 free 11: 11",
    ];
    assert_eq!(carried_from(u32::MAX - 16, &sample(&[run(22)])), lines);
    // The owns line itself in slot 0; and a wrap amid quiet slots passed at once.
    let lone = [master(0x10), queue(&[0x10, 0x08, 0x50, 0x02]), run(26)];
    let lines = ["0 10 owns: 0", "15 10 failed 4: 15", "15 10 free 15: 15"];
    assert_eq!(carried_from(u32::MAX - 10, &lone), lines);
    let lines = ["4294967287 10 owns: 0", "6 10 failed 4: 15", "6 10 free 15: 15"];
    assert_eq!(carried_from(u32::MAX - 19, &lone), lines);
}

#[test]
fn count_wraps_too() {
    let mut transfer = Transfer::silence();
    transfer.owned_by(0, Wire::EMPTY);
    transfer.slots_go_by(u32::MAX);
    assert_eq!(transfer.tenure, Tenure::Held(u32::MAX));
    transfer.slots_go_by(2);
    assert_eq!(transfer.tenure, Tenure::Held(1));
    // A count of 0 again is still a tenure.
    transfer.slots_go_by(u32::MAX);
    transfer.slot_is_over();
    assert_eq!(transfer.tenure, Tenure::Held(0));
}
