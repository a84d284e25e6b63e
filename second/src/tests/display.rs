//! Who is next after each field. Telegrams are broadcasts of six symbols: owned
//! in S they are over in S + 5, and the owner's SYN is in S + 6.

use super::*;
use crate::bus::Bus;
use crate::compare::display_coverage;
use crate::display;
use crate::event::Word;
use crate::maker;
use crate::walk::walk;

/// A broadcast.
fn wants(master: u8) -> Op<'static> {
    Op::Queue { head: [master, 0xFE, 0x50, 2], data: &[] }
}

fn bytes_of(ops: &[Op]) -> Vec<u8> {
    let mut bytes = Vec::new();
    ops.iter().for_each(|op| scenario::write(&mut bytes, op));
    bytes
}

fn shown_for(bytes: &[u8]) -> String {
    String::from_utf8(display::run(bytes).0).unwrap()
}

/// What each field shows, for a bus on which slots have run.
#[track_caller]
fn expect_next(before: &[Op], fields: &[(Op, &str)]) {
    let mut ops = before.to_vec();
    ops.extend(fields.iter().map(|(op, _)| *op));
    let shown = shown_for(&bytes_of(&ops));
    let lines: Vec<&str> = shown.lines().collect();
    assert_eq!(lines.len(), ops.len());
    assert!(lines[..before.len()].iter().all(|line| *line == "0 next nobody"));
    let wanted: Vec<String> =
        fields.iter().map(|(_, line)| line.replacen(' ', " next ", 1)).collect();
    assert_eq!(lines[before.len()..], wanted);
}

#[test]
fn rank_is_class_first() {
    // Attached and queued with the less number first.
    for (less, next, line) in
        [(0x01, 0x10, "10 10"), (0x01, 0xF0, "10 F0"), (0x13, 0x31, "10 31"), (0x0F, 0xF7, "10 F7")]
    {
        let before = [master(less), master(next), wants(less), wants(next)];
        expect_next(&before, &[(run(10), line), (run(1), "11 nobody")]);
    }
    let before = [master(0x7F), master(0x1F), wants(0x7F), wants(0x1F)];
    expect_next(&before, &[(run(10), "10 1F")]);
}

#[test]
fn after_a_collision_the_marked() {
    // Word 00 in 11, SYN in 21 for 10 alone; 00 and 30 come too late for it.
    let before = [master(0x00), master(0x01), master(0x30), master(0x10), wants(0x01), wants(0x10)];
    let fields = [
        (run(10), "10 10"),
        (run(1), "11 nobody"),
        (wants(0x00), "11 nobody"),
        (run(10), "21 10"),
        (wants(0x30), "21 10"),
        (run(7), "28 00"),
        (run(7), "35 30"),
    ];
    expect_next(&before, &fields);
}

#[test]
fn one_slot_and_no_more() {
    let before = [master(0x30), master(0x10), wants(0x30)];
    let fields = [
        (run(9), "9 nobody"),
        (heard(0xAA), "10 30"),
        (wants(0x10), "10 10"),
        (run(0), "10 10"),
        (quiet(), "11 nobody"),
        (run(0), "11 nobody"),
        (heard(0xAA), "12 10"),
        (heard(0xAA), "13 10"),
        (heard(0x40), "14 nobody"),
    ];
    expect_next(&before, &fields);
}

#[test]
fn a_syn_after_one_symbol_and_no_mark() {
    let before = [master(0x10), wants(0x10)];
    let fields = [
        (heard(0xAA), "1 10"),
        (heard(0x41), "2 nobody"),
        (heard(0xAA), "3 nobody"),
        (wants(0x10), "3 nobody"),
        (heard(0xAA), "4 10"),
        (heard(0x40), "5 nobody"),
        (heard(0xAA), "6 10"),
        (heard(0x41), "7 nobody"),
        (heard(0x41), "8 nobody"),
        (heard(0xAA), "9 10"),
    ];
    expect_next(&before, &fields);
}

#[test]
fn the_telegram_of_the_slot_before_is_gone() {
    // Failed 1 by SYN: in the second symbol only the marked are admitted, here
    // nobody; in the third all. Then the owner's own SYN.
    let before = [master(0x10), wants(0x10), wants(0x10), wants(0x10), wants(0x10)];
    let fields = [
        (run(11), "11 nobody"),
        (heard(0xAA), "12 nobody"),
        (heard(0xAA), "13 10"),
        (run(2), "15 nobody"),
        (heard(0xAA), "16 10"),
        (run(7), "23 10"),
        (run(6), "29 nobody"),
        (run(1), "30 nobody"),
        (wants(0x10), "30 10"),
    ];
    expect_next(&before, &fields);
}

#[test]
fn refused_calls_change_nothing() {
    let before = [master(0x31), slave(0x08), wants(0x31)];
    let fields = [
        (run(10), "10 31"),
        (wants(0x10), "10 31"),
        (wants(0x08), "10 31"),
        (wants(0x36), "10 31"),
        (master(0x10), "10 31"),
        (queue(&[0x31, 0x36, 0x50, 2]), "10 31"),
        (reply(&[0x31, 0x50, 2]), "10 31"),
        (reply(&[0x36, 0x50, 2]), "10 31"),
    ];
    expect_next(&before, &fields);
}

#[test]
fn form() {
    assert_eq!(shown_for(&[]), "");
    assert_eq!(shown_for(&[7, 0, 0, 8, 0, 0]), "refused 14 3\n");
    assert_eq!(shown_for(&[7, 0, 1, 0]), "refused 14 0\n");
    assert_eq!(shown_for(&[7, 0, 0, 7, 0]), "refused 14 3\n");
    assert_eq!(shown_for(&[0; 65_537]), "refused 15 65536\n");
    assert_eq!(shown_for(&[5, 0, 2, 0xFF, 0xFF]), "65535 next nobody\n");
}

/// The name in 02: whoever is next owns the wire, if nothing disturbs it and
/// nothing more is queued: at once, or after one collision.
#[test]
fn next_is_who_owns_next() {
    for seed in 0..600 {
        let whole = maker::make_display(seed);
        let Ok(ops) = scenario::parse(&whole) else { continue };
        let mut bus = Bus::new();
        for op in ops {
            let _ = bench::operate(&mut bus, &op);
            bus.forget_events();
            let next = walk(&bus).next();
            let mut copy = bus.clone();
            copy.run(if next.is_some() { 12 } else { 1 });
            let mut owns = copy.events().iter().filter(|event| matches!(event.word, Word::Owns));
            let owner = owns.next().map(|event| copy.table().name(event.station));
            assert_eq!(owner, next, "seed {seed} slot {}", bus.slot_number());
        }
    }
}

/// A run shows at its end what it shows slot by slot.
#[test]
fn shortcuts_change_nothing() {
    for seed in 0..600 {
        let whole = maker::make_display(seed);
        let Ok(ops) = scenario::parse(&whole) else { continue };
        let mut bus = Bus::new();
        let shown = shown_for(&whole);
        for (op, line) in ops.iter().zip(shown.lines()) {
            match op {
                Op::Run(count) => (0..*count).for_each(|_| bus.run(1)),
                other => drop(bench::operate(&mut bus, other)),
            }
            bus.forget_events();
            let next = walk(&bus).next().map_or("nobody".into(), |next| format!("{next:02X}"));
            assert_eq!(line, format!("{} next {next}", bus.slot_number()), "seed {seed}");
        }
    }
}

#[test]
fn maker_reaches_everything() {
    assert_eq!(display_coverage(1000, 1).missing(), Vec::<String>::new());
}
