//! Every refusal and the order of checks.

use super::*;

#[test]
fn refusal_7_bus_has_run() {
    expect(&[run(1), master(0x10), slave(0x08)], &["refused 7", "refused 7", "end 1"]);
    // Seven comes before eight; a run of no slots is no run.
    expect(&[quiet(), master(0x02)], &["refused 7", "end 1"]);
    expect(&[run(0), master(0x10), slave(0x08)], &["end 0"]);
}

#[test]
fn refusal_8_wrong_kind_of_address() {
    expect(&[master(0x02), master(0xFE)], &["refused 8", "refused 8", "end 0"]);
    let slaves = [slave(0xA9), slave(0xAA), slave(0xFE), slave(0x10)];
    expect(&slaves, &["refused 8", "refused 8", "refused 8", "refused 8", "end 0"]);
}

#[test]
fn refusal_9_address_in_use() {
    expect(&[master(0x10), master(0x10)], &["refused 9", "end 0"]);
    expect(&[master(0x10), slave(0x15)], &["refused 9", "end 0"]);
    expect(&[slave(0x15), master(0x10)], &["refused 9", "end 0"]);
    expect(&[slave(0x15), slave(0x15)], &["refused 9", "end 0"]);
    // A refused master leaves nothing behind.
    expect(
        &[slave(0x15), master(0x10), queue(&[0x10, 8, 5, 2])],
        &["refused 9", "refused 1", "end 0"],
    );
}

/// 32 slaves from 20 hex on; none of them is a master address.
fn full_house() -> Vec<Op<'static>> {
    (0x20..0x30).chain(0x40..0x50).map(slave).collect()
}

#[test]
fn refusal_10_full_after_8_and_9() {
    let mut ops = full_house();
    ops.extend([slave(0x50), master(0x10), slave(0x10), slave(0x20), master(0x02)]);
    let lines = ["refused 10", "refused 10", "refused 8", "refused 9", "refused 8", "end 0"];
    expect(&ops, &lines);
}

#[test]
fn refusal_1_no_attached_master() {
    let ops = [master(0x10), slave(0x08), queue(&[0x30, 8, 5, 2]), queue(&[0x08, 0x10, 5, 2])];
    expect(&ops, &["refused 1", "refused 1", "end 0"]);
    // The slave address of a master is no master either; 1 comes before 2.
    let ops = [master(0x10), queue(&[0x15, 8, 5, 2]), queue(&[0x30, 0xA9, 5, 2])];
    expect(&ops, &["refused 1", "refused 1", "end 0"]);
}

#[test]
fn refusal_2_bad_target() {
    let ops = [
        master(0x10),
        queue(&[0x10, 0xA9, 5, 2]),
        queue(&[0x10, 0xAA, 5, 2]),
        queue(&[0x10, 0x10, 5, 2]),
        queue(&[0x10, 0x15, 0xAA, 2]),
    ];
    expect(&ops, &["refused 2", "refused 2", "refused 2", "refused 2", "end 0"]);
}

#[test]
fn refusal_11_no_slave_address() {
    let ops = [
        master(0x10),
        slave(0x08),
        reply(&[0x10, 5, 2]),
        reply(&[0x09, 0xA9, 2]),
        reply(&[0xFE, 5, 2]),
        reply(&[0x15, 5, 2]),
        reply(&[0x08, 5, 2]),
    ];
    expect(&ops, &["refused 11", "refused 11", "refused 11", "end 0"]);
}

#[test]
fn refusal_3_bad_command() {
    let seventeen = [0x10, 8, 5, 0xA9, 1, 2, 3, 4, 5, 6, 7, 8, 9, 10, 11, 12, 13, 14, 15, 16, 17];
    let ops = [
        master(0x10),
        slave(0x08),
        queue(&[0x10, 8, 0xA9, 2]),
        queue(&[0x10, 8, 5, 0xAA]),
        queue(&seventeen),
        reply(&[8, 0xAA, 2]),
        reply(&[8, 5, 0xA9]),
    ];
    expect(&ops, &["refused 3"; 5].iter().copied().chain(["end 0"]).collect::<Vec<_>>());
}

#[test]
fn refusal_4_too_many_data() {
    let mut long = vec![0x10, 8, 5, 2];
    long.extend([0; 17]);
    let mut long_reply = vec![8, 5, 2];
    long_reply.extend([0; 17]);
    let ops = [master(0x10), slave(8), queue(&long), reply(&long_reply)];
    expect(&ops, &["refused 4", "refused 4", "end 0"]);
}

#[test]
fn refusal_5_queue_full() {
    let telegram = [0x10, 8, 5, 2];
    let mut ops = vec![master(0x10)];
    ops.extend([queue(&telegram); 5]);
    expect(&ops, &["refused 5", "end 0"]);
    // Four comes before five.
    let mut long = telegram.to_vec();
    long.extend([0; 17]);
    ops.push(queue(&long));
    expect(&ops, &["refused 5", "refused 4", "end 0"]);
}

#[test]
fn refusal_12_replies_full() {
    let entries: Vec<[u8; 3]> = (0..9).map(|sb| [8, 5, sb]).collect();
    let mut ops = vec![slave(8)];
    ops.extend(entries.iter().map(|entry| reply(entry)));
    // The ninth is refused; replacing one of the eight is not.
    ops.push(reply(&[8, 5, 3, 1]));
    expect(&ops, &["refused 12", "end 0"]);
}

#[test]
fn refusal_14_bad_form() {
    let good = [0x01, 0, 1, 0x10, 0x05, 0, 2, 0, 30];
    let bad: [&[u8]; 14] = [
        &[0x00, 0, 0],
        &[0x08, 0, 0],
        &[0x01, 0, 0],
        &[0x01, 0, 2, 0x10, 0x10],
        &[0x02, 0, 2, 8, 8],
        &[0x03, 0, 2, 8, 5],
        &[0x04, 0, 3, 0x10, 8, 5],
        &[0x05, 0, 1, 0],
        &[0x05, 0, 3, 0, 0, 0],
        &[0x06, 0, 0],
        &[0x07, 0, 1, 0],
        &[0x07],
        &[0x07, 0],
        &[0x06, 0, 1],
    ];
    for field in bad {
        let file = [&good[..], field].concat();
        assert_eq!(printed_for(&file), "ebus bench\nrefused 14 9\n", "{field:?}");
    }
    assert_eq!(printed_for(&[0x09, 0, 0, 0x0A]), "ebus bench\nrefused 14 0\n");
}

#[test]
fn refusal_15_too_long() {
    // 16,384 fields of four bytes are just allowed: all slots hear 05.
    let full: Vec<u8> = [0x06, 0, 1, 5].repeat(16_384);
    assert_eq!(full.len(), 65_536);
    assert_eq!(printed_for(&full), "ebus bench\nend 16384\n");
    let more = [&full[..], &[0x99]].concat();
    assert_eq!(printed_for(&more), "ebus bench\nrefused 15 65536\n");
}

#[test]
fn empty_file() {
    assert_eq!(printed_for(&[]), "ebus bench\nend 0\n");
}
