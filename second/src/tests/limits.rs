//! The limits 01 wants run by program, the wrap of the slot number and the
//! long run at rest.

use super::*;
use crate::bench::Bench;
use crate::bus::Bus;

#[test]
fn sixteen_data_bytes_and_seventeen() {
    // 5 + 16 + 1 symbols (check 50): slots 11 to 32, 33 acknowledgement,
    // empty answer in 34 and 35, 36, 37.
    let mut sixteen = vec![0x10, 0x08, 0x50, 0x02];
    sixteen.extend([0; 16]);
    let mut seventeen = sixteen.clone();
    seventeen.push(0);
    let ops = [master(0x10), slave(0x08), queue(&seventeen), queue(&sixteen), run(37)];
    let given = format!("33 08 given 10 50 02 10{}", " 00".repeat(16));
    let lines = [
        "refused 4",
        "11 10 owns",
        "33 10 taken",
        &given,
        "36 08 taken",
        "36 10 answer 08 00",
        "37 10 free 26",
        "end 37",
    ];
    expect(&ops, &lines);
}

#[test]
fn stations_32_and_33() {
    let mut ops: Vec<Op> = (0x40..0x60).filter(|&a| a != 0x5A).map(slave).collect();
    assert_eq!(ops.len(), 31);
    ops.extend([master(0x10), slave(0x5A), slave(0x60)]);
    expect(&ops, &["refused 10", "refused 10", "end 0"]);
    // The last one is a station like the others: 10 broadcasts to 31 slaves.
    ops.extend([queue(&[0x10, 0xFE, 0x50, 0x02]), run(17)]);
    let text = printed(&ops);
    assert_eq!(text.matches("given 10 50 02 00").count(), 31);
    assert!(!text.contains("16 10 given"));
}

#[test]
fn telegrams_4_and_5() {
    // One in transfer counts until the slot of its free line; a call before
    // the next slot finds the room.
    let telegram = [0x10, 0x31, 0x50, 0x02];
    let mut ops = vec![master(0x31), master(0x10)];
    ops.extend([queue(&telegram); 5]);
    ops.extend([run(17), queue(&telegram), run(1), queue(&telegram), queue(&telegram)]);
    let lines = [
        "refused 5",
        "11 10 owns",
        "17 10 taken",
        "17 31 given 10 50 02 00",
        "refused 5",
        "18 10 free 7",
        "refused 5",
        "end 18",
    ];
    expect(&ops, &lines);
}

#[test]
fn replies_8_and_9() {
    // The ninth is refused and the eighth is the one that answers.
    let entries: Vec<[u8; 4]> = (0..9).map(|n| [0x08, 0x50, 0xF8 + n, n]).collect();
    let mut ops = vec![master(0x10), slave(0x08)];
    ops.extend(entries.iter().map(|entry| reply(entry)));
    ops.extend([queue(&[0x10, 0x08, 0x50, 0xFF]), run(30)]);
    let text = printed(&ops);
    // F8 + 8 wraps to 00 for the ninth.
    assert!(text.starts_with("ebus bench\nrefused 12\n11 10 owns\n"), "{text}");
    assert!(text.contains(" 10 answer 08 01 07\n"), "{text}");
}

#[test]
fn slave_04_beside_master_ff() {
    expect(&[master(0xFF), slave(0x04)], &["refused 9", "end 0"]);
    expect(&[slave(0x04), master(0xFF), master(0x7F)], &["refused 9", "end 0"]);
}

#[test]
fn slot_number_wraps() {
    let mut bus = Bus::new();
    bus.run(1);
    bus.set_slot_number(u32::MAX - 1);
    bus.run(1);
    assert_eq!(bus.slot_number(), u32::MAX);
    bus.run(1);
    assert_eq!(bus.slot_number(), 0);
    // Number 0 again, and still a bus that has run.
    assert_eq!(bus.attach_master(0x10), Err(7));
    bus.set_slot_number(u32::MAX - 100);
    bus.run(1_000_000);
    assert_eq!(bus.slot_number(), 1_000_000 - 101);
}

#[test]
fn lines_across_the_wrap() {
    // The sample with slot 17 as number 0: 4294967290 is six before it, and 4
    // is four after it.
    let mut bench = Bench::new();
    bench.apply(&master(0x10));
    bench.apply(&slave(0x08));
    bench.apply(&queue(&[0x10, 0x08, 0x50, 0x02]));
    bench.bus.set_slot_number(u32::MAX - 16);
    bench.apply(&run(21));
    let text = String::from_utf8(bench.finish().0).unwrap();
    let wanted = "ebus bench\n4294967290 10 owns\n0 10 taken\n0 08 given 10 50 02 00\n\
                  3 08 taken\n3 10 answer 08 00\n4 10 free 10\nend 4\n";
    assert_eq!(text, wanted);
}

#[test]
fn long_run_at_rest() {
    let mut bytes = vec![0x01, 0, 1, 0x10];
    bytes.extend([0x05, 0, 2, 0xFF, 0xFF].repeat(13_106));
    assert_eq!(printed_for(&bytes), format!("ebus bench\nend {}\n", 13_106u32 * 65_535));
}

#[test]
fn rest_ends_in_step() {
    // SYNs fall on 10, 20, 30 ...: after 1,000,003 slots the next is in
    // 1,000,010.
    let mut ops = vec![master(0x10)];
    ops.extend([run(50_000); 20]);
    ops.extend([run(3), queue(&[0x10, 0x08, 0x50, 0x02]), run(8)]);
    expect(&ops, &["1000011 10 owns", "end 1000011"]);
}
