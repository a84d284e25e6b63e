//! P1 to P7, the address sets, the reduction, and A9 in the place of NN.

use crate::intake::{Fed, Intake};
use crate::wire::{crc_step, is_master, is_slave, slave_of, Wire, BROADCAST, ESC, SYN};

fn p(data: &[u8]) -> Vec<u8> {
    Wire::master_part([0x10, 0x08, 0x50, 0x02], data).symbols().to_vec()
}

#[test]
fn p1_to_p5_master_parts() {
    assert_eq!(p(&[]), [0x10, 0x08, 0x50, 0x02, 0x00, 0x38]);
    assert_eq!(p(&[0xAA]), [0x10, 0x08, 0x50, 0x02, 0x01, 0xA9, 0x01, 0xDC]);
    assert_eq!(p(&[0xA9]), [0x10, 0x08, 0x50, 0x02, 0x01, 0xA9, 0x00, 0xDD]);
    assert_eq!(p(&[0x7E]), [0x10, 0x08, 0x50, 0x02, 0x01, 0x7E, 0xA9, 0x01]);
    assert_eq!(p(&[0x7D]), [0x10, 0x08, 0x50, 0x02, 0x01, 0x7D, 0xA9, 0x00]);
}

#[test]
fn p6_and_p7_answers() {
    assert_eq!(Wire::answer(&[0x64]).symbols(), [0x01, 0x64, 0xFF]);
    assert_eq!(Wire::answer(&[]).symbols(), [0x00, 0x00]);
}

#[test]
fn reduction_entries_named_in_01() {
    assert_eq!(crc_step(0x01, 0x00), 0x9B);
    assert_eq!(crc_step(0x80, 0x00), 0x0B);
    assert_eq!(crc_step(0x00, 0x00), 0x00);
}

#[test]
fn address_sets() {
    let all = 0..=0xFFu8;
    assert_eq!(all.clone().filter(|&a| is_master(a)).count(), 25);
    assert_eq!(all.clone().filter(|&a| is_slave(a)).count(), 228);
    assert!(all.filter(|&a| is_master(a)).all(|a| is_slave(slave_of(a))));
    assert_eq!(slave_of(0xFF), 0x04);
    assert!(![SYN, ESC, BROADCAST].iter().any(|&a| is_master(a) || is_slave(a)));
}

#[test]
fn a9_as_count_is_over_long_and_no_pair() {
    assert_eq!(Intake::answer().feed(0xA9), Fed::OverLong);
    let mut part = Intake::master_part();
    let fed = [0x10, 0x08, 0x50, 0x02, 0xA9].map(|symbol| part.feed(symbol));
    assert_eq!(fed, [Fed::More, Fed::Target, Fed::More, Fed::More, Fed::OverLong]);
}
