//! Telegrams that no attached master sends, heard slot by slot. SYN is heard
//! in slot 1, QQ in 2.

use super::*;

const P1: [u8; 6] = [0x10, 0x08, 0x50, 0x02, 0x00, 0x38];
const P1_BAD: [u8; 6] = [0x10, 0x08, 0x50, 0x02, 0x00, 0x39];

/// Slave 08 with the reply of the sample, then SYN, the symbols, the rest.
fn after(symbols: &[u8], rest: &[Op<'static>]) -> Vec<Op<'static>> {
    let mut ops = vec![slave(0x08), reply(&[0x08, 0x50, 0x02, 0x64]), heard(0xAA)];
    ops.extend(all_heard(symbols));
    ops.extend_from_slice(rest);
    ops
}

#[test]
fn slave_answers_a_foreign_master() {
    // 8: 00 of the slave; 9 to 11 its answer; 12 decides.
    let given = "8 08 given 10 50 02 00";
    let ack = |symbol| after(&P1, &[run(4), heard(symbol)]);
    expect(&ack(0x00), &[given, "12 08 taken", "end 12"]);
    expect(&ack(0x05), &[given, "12 08 failed 2", "end 12"]);
    expect(&ack(0xAA), &[given, "12 08 failed 4", "end 12"]);
    let twice = after(&P1, &[run(4), heard(0xFF), run(3), heard(0xFF)]);
    expect(&twice, &[given, "16 08 failed 3", "end 16"]);
    let broken = after(&P1, &[run(2), heard(0x63), run(3)]);
    expect(&broken, &[given, "10 08 failed 1", "end 13"]);
}

#[test]
fn second_reading_damaged() {
    // 2 to 7 damaged, 8 FF, 9 to 14 damaged, 15 FF: silent, nothing given.
    let mut ops = after(&P1_BAD, &[run(1)]);
    ops.extend(all_heard(&P1_BAD));
    ops.extend([run(1), heard(0x00)]);
    expect(&ops, &["end 16"]);
}

#[test]
fn ack_after_a_damaged_second_reading() {
    // First reading sound but FF heard; second damaged and 00 heard.
    let mut ops = after(&P1, &[heard(0xFF)]);
    ops.extend(all_heard(&P1_BAD));
    ops.extend([heard(0x00), run(3)]);
    expect(&ops, &["end 18"]);
}

#[test]
fn second_reading_sound() {
    let mut ops = after(&P1_BAD, &[run(1)]);
    ops.extend(all_heard(&P1));
    ops.push(run(1));
    expect(&ops, &["15 08 given 10 50 02 00", "end 15"]);
}

/// All that is above 16 but AA, which is a SYN wherever it is heard.
fn over_long_counts() -> impl Iterator<Item = u8> {
    (0x11..=0xFF).filter(|&count| count != 0xAA)
}

#[test]
fn over_long_part_gets_nothing() {
    // NN in 6; whatever is heard in 7, P1 in 8 to 13 is not read. SYN in 15,
    // P1 in 16 to 21, 22: 00.
    for count in over_long_counts() {
        for seventh in [run(1), heard(0x00), heard(0xFF), heard(0x55)] {
            let mut ops = after(&[0x10, 0x08, 0x50, 0x02, count], &[seventh]);
            ops.extend(all_heard(&P1));
            ops.extend([run(1), heard(0xAA)]);
            ops.extend(all_heard(&P1));
            ops.push(run(1));
            expect(&ops, &["22 08 given 10 50 02 00", "end 22"]);
        }
    }
}

#[test]
fn over_long_part_leaves_the_wire_quiet() {
    // NN in 6, 7 to 15 quiet, SYN in 16: whoever reads it, 71 owns in 17.
    for target in [0x08, 0x30, 0x35, 0xFE] {
        for count in over_long_counts() {
            let mut ops = vec![master(0x30), master(0x71), slave(0x08), heard(0xAA)];
            ops.extend(all_heard(&[0x10, target, 0x50, 0x02, count]));
            ops.extend([queue(&[0x71, 0x08, 0x50, 0x02]), run(11)]);
            expect(&ops, &["17 71 owns", "end 17"]);
        }
    }
}

#[test]
fn over_long_repetition_gets_nothing() {
    // 2 to 7 sound, FF heard in 8; NN in 13. The 00 in 14 is for nobody.
    for count in over_long_counts() {
        let mut ops = after(&P1, &[heard(0xFF)]);
        ops.extend(all_heard(&[0x10, 0x08, 0x50, 0x02, count, 0x00]));
        ops.push(run(3));
        expect(&ops, &["end 17"]);
    }
    // 2 to 7 damaged, 8 FF of 08; NN in 13, 14 to 22 quiet, SYN in 23.
    let mut ops = vec![master(0x30), slave(0x08), heard(0xAA)];
    ops.extend(all_heard(&P1_BAD));
    ops.push(run(1));
    ops.extend(all_heard(&[0x10, 0x08, 0x50, 0x02, 0x11]));
    ops.extend([queue(&[0x30, 0x08, 0x50, 0x02]), run(11)]);
    expect(&ops, &["24 30 owns", "end 24"]);
}

#[test]
fn over_long_by_a_disturbed_owner() {
    // NN, sent in 15 and again in 22, is heard as 17: the owner fails with 1
    // and leaves, 08 is silent. Quiet, and SYN ten slots later.
    let start = [master(0x10), slave(0x08), queue(&[0x10, 0x08, 0x50, 0x02])];
    let again = queue(&[0x10, 0x08, 0x50, 0x03]);
    let first = [&start[..], &[again, run(14), heard(0x11), run(11)]].concat();
    let lines = ["11 10 owns", "15 10 failed 1", "15 10 free 4", "26 10 owns", "end 26"];
    expect(&first, &lines);
    let repeated = [run(16), heard(0xFF), run(4), heard(0x11), run(11)];
    let second = [&start[..], &[again], &repeated].concat();
    let lines = ["11 10 owns", "22 10 failed 1", "22 10 free 11", "33 10 owns", "end 33"];
    expect(&second, &lines);
}

#[test]
fn syn_in_the_place_of_nn() {
    // 6 is a SYN: P1 in 7 to 12, 13: 00.
    let mut ops = after(&[0x10, 0x08, 0x50, 0x02, 0xAA], &[]);
    ops.extend(all_heard(&P1));
    ops.push(run(1));
    expect(&ops, &["13 08 given 10 50 02 00", "end 13"]);
}

#[test]
fn repetition_is_read_in_full() {
    // Another source the second time: it is the one handed out.
    let mut ops = after(&P1_BAD, &[run(1)]);
    ops.extend(all_heard(&[0x30, 0x08, 0x50, 0x02, 0x00, 0x71]));
    ops.push(run(1));
    expect(&ops, &["15 08 given 30 50 02 00", "end 15"]);
    // Another target: silent.
    let mut ops = after(&P1_BAD, &[run(1)]);
    ops.extend(all_heard(&[0x10, 0x36, 0x50, 0x02, 0x00, 0x6F]));
    ops.extend([run(1), heard(0x00)]);
    expect(&ops, &["end 16"]);
    // No master as source: silent.
    let mut ops = after(&P1_BAD, &[run(1)]);
    ops.extend(all_heard(&[0x20, 0x08, 0x50, 0x02, 0x00]));
    ops.push(run(2));
    expect(&ops, &["end 15"]);
}

#[test]
fn repetition_as_broadcast_reaches_only_who_is_in_step() {
    // 30 fell silent in the first attempt, 08 did not.
    let mut ops = vec![master(0x30), slave(0x08), heard(0xAA)];
    ops.extend(all_heard(&P1_BAD));
    ops.push(run(1));
    ops.extend(all_heard(&[0x10, 0xFE, 0x50, 0x02, 0x00, 0xFD]));
    expect(&ops, &["14 08 given 10 50 02 00", "end 14"]);
}

#[test]
fn broadcast_without_owner_reaches_all() {
    let mut ops = vec![slave(0x08), master(0x10), master(0x30), heard(0xAA)];
    ops.extend(all_heard(&[0x10, 0xFE, 0x50, 0x02, 0x00, 0xFD]));
    let lines =
        ["7 08 given 10 50 02 00", "7 10 given 10 50 02 00", "7 30 given 10 50 02 00", "end 7"];
    expect(&ops, &lines);
}

#[test]
fn damaged_or_over_long_broadcast_gives_silence() {
    let mut ops = vec![slave(0x08), heard(0xAA)];
    ops.extend(all_heard(&[0x10, 0xFE, 0x50, 0x02, 0x00, 0xFC]));
    ops.extend([run(1), heard(0x00)]);
    expect(&ops, &["end 9"]);
    // No FF in 7, so nothing begins again in 8.
    let mut ops = vec![slave(0x08), heard(0xAA)];
    ops.extend(all_heard(&[0x10, 0xFE, 0x50, 0x02, 0x11]));
    ops.push(run(1));
    ops.extend(all_heard(&P1));
    ops.push(run(1));
    expect(&ops, &["end 14"]);
}

#[test]
fn what_gives_silence() {
    let silent: [&[u8]; 6] = [
        &[0x20, 0x08, 0x50, 0x02, 0x00],
        &[0x10, 0xA9, 0x08, 0x50, 0x02, 0x00],
        &[0x10, 0x08, 0xA9, 0x02, 0x00, 0x00],
        &[0x10, 0x08, 0x50, 0xA9, 0x00, 0x00],
        &[0x10, 0x08, 0x50, 0x02, 0x01, 0xA9, 0x02],
        &[0x10, 0x08, 0x50, 0x02, 0x00, 0xA9, 0xFF],
    ];
    for symbols in silent {
        // Were a reader left, it would sooner or later answer for itself.
        let mut ops = after(symbols, &[]);
        ops.extend(all_heard(&[0x00; 12]));
        let end = format!("end {}", symbols.len() + 13);
        expect(&ops, &[&end]);
    }
}

#[test]
fn quiet_slots_are_skipped() {
    let mut ops = vec![slave(0x08), heard(0xAA), quiet()];
    for symbol in P1 {
        ops.extend([heard(symbol), quiet()]);
    }
    // The quiet slot 14 is the acknowledgement slot: 00 comes too late to be
    // the reader's, but counts. Its answer 00 00 begins in 16.
    ops.extend([heard(0x00), run(2), heard(0x00)]);
    expect(&ops, &["15 08 given 10 50 02 00", "18 08 taken", "end 18"]);
}

#[test]
fn master_reads_its_own_source_address() {
    // No rule makes a station deaf to its own QQ when it does not own.
    // 31 15 50 02 00 A4 and 10 15 50 02 00 62.
    let mut ops = vec![master(0x10), heard(0xAA)];
    ops.extend(all_heard(&[0x10, 0x15, 0x50, 0x02, 0x00, 0x62]));
    ops.extend([run(3), heard(0x00)]);
    expect(&ops, &["8 10 given 10 50 02 00", "11 10 taken", "end 11"]);
}

#[test]
fn loser_reads_the_winner() {
    // 10 wants the wire, but 31 is heard: 10 reads and is addressed.
    let mut ops = vec![master(0x10), queue(&[0x10, 0x08, 0x50, 0x02]), heard(0xAA)];
    ops.extend(all_heard(&[0x31, 0x10, 0x50, 0x02, 0x00, 0x19]));
    ops.extend([run(1), heard(0xAA), run(1)]);
    expect(&ops, &["8 10 given 31 50 02 00", "10 10 owns", "end 10"]);
}

#[test]
fn lost_owner_leaves_the_reader_in_step() {
    // 10 sends P1, NN heard as 01: data 64 and check B0 are heard; 08 takes
    // it in 18, answers nothing (no entry) in 19, 20; 21 decides.
    let ops = [
        master(0x10),
        slave(0x08),
        queue(&[0x10, 0x08, 0x50, 0x02]),
        run(14),
        heard(0x01),
        heard(0x64),
        heard(0xB0),
        run(3),
        heard(0x00),
        run(1),
    ];
    let lines = [
        "11 10 owns",
        "15 10 failed 1",
        "15 10 free 4",
        "18 08 given 10 50 02 01 64",
        "21 08 taken",
        "end 22",
    ];
    expect(&ops, &lines);
}

#[test]
fn bare_syn_is_never_a_check_symbol() {
    // P4 with its check symbol AA not expanded: the SYN in 8 ends the reading
    // and what follows is a new QQ. Sent as a pair it is taken.
    let head = [0x10, 0x08, 0x50, 0x02, 0x01, 0x7E];
    let mut ops = after(&head, &[heard(0xAA), run(1), heard(0x00)]);
    expect(&ops, &["end 10"]);
    ops = after(&head, &[heard(0xA9), heard(0x01), run(1)]);
    expect(&ops, &["10 08 given 10 50 02 01 7E", "end 10"]);
}
