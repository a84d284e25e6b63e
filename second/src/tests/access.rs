//! Admission, arbitration, collisions and the generator.

use super::*;

/// Attaches the masters and queues one telegram to the absent slave 08 for
/// each. All check symbols are single: 6 symbols, 9 quiet slots, AUTO-SYN.
fn all_want(masters: &'static [u8]) -> Vec<Op<'static>> {
    let mut ops: Vec<Op> = masters.iter().map(|&m| master(m)).collect();
    ops.extend(masters.iter().map(|&m| Op::Queue { head: [m, 8, 0x50, 2], data: &[] }));
    ops
}

#[track_caller]
fn first_owner(masters: &'static [u8], line: &str) {
    let mut ops = all_want(masters);
    ops.push(run(22));
    expect_owners(&ops, &[line]);
}

#[test]
fn p8_to_p12_owners() {
    first_owner(&[0x00, 0x01], "11 00 owns");
    first_owner(&[0x10, 0x01], "22 10 owns");
    first_owner(&[0xF0, 0x30, 0x1F], "22 30 owns");
    first_owner(&[0x31, 0x13], "22 31 owns");
    first_owner(&[0xFF, 0x7F], "11 7F owns");
}

#[test]
fn collision_across_classes_goes_on() {
    // 11: word 00, nobody; 12 to 20 quiet, 21 AUTO-SYN for the marked 10.
    // 22 to 27 its part, 28 to 36 quiet, 37 failed 4; then all: 01 alone.
    let mut ops = all_want(&[0x10, 0x01]);
    ops.push(run(53));
    let lines = [
        "22 10 owns",
        "37 10 failed 4",
        "37 10 free 15",
        "38 01 owns",
        "53 01 failed 4",
        "53 01 free 15",
        "end 53",
    ];
    expect(&ops, &lines);
}

#[test]
fn collision_inside_a_class() {
    // 30 and 10 of class 0 give the word 10: 10 owns at once and 30 comes
    // next, its mark gone by then.
    let mut ops = all_want(&[0x30, 0x10]);
    ops.push(run(42));
    let lines = [
        "11 10 owns",
        "26 10 failed 4",
        "26 10 free 15",
        "27 30 owns",
        "42 30 failed 4",
        "42 30 free 15",
        "end 42",
    ];
    expect(&ops, &lines);
}

#[test]
fn newcomer_waits_after_collision() {
    // 00 queues after the collision; AUTO-SYN in 21 admits only 10. The SYN
    // in 37 admits all: word 00 is 00's own.
    let mut ops = vec![master(0x00)];
    ops.extend(all_want(&[0x10, 0x01]));
    ops.extend([run(12), queue(&[0x00, 8, 0x50, 2]), run(26)]);
    expect_owners(&ops, &["22 10 owns", "38 00 owns"]);
}

#[test]
fn one_symbol_without_marks_admits_nobody() {
    // After SYN a foreign 10 is heard while nothing is queued: AUTO-SYN in 12
    // admits nobody, that in 22 everybody.
    let ops = [master(0x30), heard(0xAA), heard(0x10), queue(&[0x30, 8, 0x50, 2]), run(21)];
    expect(&ops, &["23 30 owns", "end 23"]);
}

#[test]
fn loser_marks_itself_when_another_won() {
    // 30 and 10 send, all hear 30: 30 owns, 10 is marked. 30 then hears
    // quiet: one symbol since SYN, so AUTO-SYN in 21 admits 10 alone; 00,
    // queued later, waits.
    let mut ops = vec![master(0x00)];
    ops.extend(all_want(&[0x30, 0x10]));
    ops.extend([run(10), heard(0x30), quiet(), queue(&[0x00, 8, 0x50, 2]), run(10)]);
    let lines = ["11 30 owns", "12 30 failed 1", "12 30 free 1", "22 10 owns", "end 22"];
    expect(&ops, &lines);
}

#[test]
fn word_that_is_no_master_still_marks() {
    // 11 is heard as 40: low half 0 marks 10 but not 01.
    let mut ops = all_want(&[0x01, 0x10]);
    ops.extend([run(10), heard(0x40), run(11)]);
    expect(&ops, &["22 10 owns", "end 22"]);
}

#[test]
fn two_symbols_after_a_collision_admit_all() {
    // Word 00 in 11, then 55 in 12: AUTO-SYN in 22 admits both again.
    let mut ops = all_want(&[0x10, 0x01]);
    ops.extend([run(11), heard(0x55), run(11), run(10)]);
    // 23: word 00 again; 33 AUTO-SYN.
    expect(&ops, &["end 33"]);
    ops.push(run(1));
    expect(&ops, &["34 10 owns", "end 34"]);
}

#[test]
fn quiet_and_syn_in_the_contest() {
    // 11 quiet: withdrawn and unmarked. 11 to 19 quiet, 20 AUTO-SYN, 21.
    let mut ops = all_want(&[0x10]);
    ops.extend([run(10), quiet(), run(10)]);
    expect(&ops, &["21 10 owns", "end 21"]);
    // 11 heard as SYN admits all again.
    let mut ops = all_want(&[0x10]);
    ops.extend([run(10), heard(0xAA), run(1)]);
    expect(&ops, &["12 10 owns", "end 12"]);
}

#[test]
fn late_queue_waits_for_the_next_syn() {
    // Slot 11 passes with nothing queued: the admission is over. 20 AUTO-SYN.
    let ops = [master(0x10), run(11), queue(&[0x10, 8, 0x50, 2]), run(10)];
    expect(&ops, &["21 10 owns", "end 21"]);
}

#[test]
fn nothing_counts_before_the_first_syn() {
    // A symbol in slot 1 and no mark: the first SYN (slot 11) admits all.
    let ops = [master(0x10), queue(&[0x10, 8, 0x50, 2]), heard(0x10), run(11)];
    expect(&ops, &["12 10 owns", "end 12"]);
}

#[test]
fn eight_and_nine_quiet_slots() {
    // Eight quiet, a symbol, then nine more quiet: SYN in 19.
    let ops = [master(0x10), queue(&[0x10, 8, 0x50, 2]), run(8), heard(0x05), run(11)];
    expect(&ops, &["20 10 owns", "end 20"]);
    // Nine quiet: SYN in 10.
    let ops = [master(0x10), queue(&[0x10, 8, 0x50, 2]), run(9), run(2)];
    expect(&ops, &["11 10 owns", "end 11"]);
    // The SYN itself heard as quiet starts the count at 0: 11 to 19, SYN 20.
    let ops = [master(0x10), queue(&[0x10, 8, 0x50, 2]), run(9), quiet(), run(11)];
    expect(&ops, &["21 10 owns", "end 21"]);
    // Nine disturbed quiet slots count like any others.
    let mut ops = vec![master(0x10), queue(&[0x10, 8, 0x50, 2])];
    ops.extend([quiet(); 9]);
    ops.push(run(2));
    expect(&ops, &["11 10 owns", "end 11"]);
}
