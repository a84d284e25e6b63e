//! The longest parts, what a wire buffer holds, and that no call is refused
//! with 6 (E8).

use super::*;
use crate::bus::Bus;
use crate::maker;
use crate::random::Random;
use crate::table::Table;
use crate::wire::{spelled, Wire, ESC, MAX_DATA, SYN, WIRE_MAX};

#[test]
fn longest_part_and_answer_fit() {
    assert_eq!(WIRE_MAX, 39);
    // Behind PB E1 sixteen AA have the check symbol AA.
    let part = Wire::master_part([0x10, 0x08, 0xE1, 0x02], &[SYN; 16]);
    assert_eq!(part.symbols().len(), 39);
    assert_eq!(part.symbols()[37..], [0xA9, 0x01]);
    // With the tenth byte A9 their check symbol is AA behind NN alone too.
    let mut data = [SYN; 16];
    data[9] = ESC;
    let answer = Wire::answer(&data);
    assert_eq!(answer.symbols().len(), 35);
    assert_eq!(answer.symbols()[33..], [0xA9, 0x01]);
}

/// Any data byte is one symbol or two, so only how many are two matters.
#[test]
fn no_part_of_16_data_bytes_is_longer() {
    let mut greatest = 0;
    for count in 0..=MAX_DATA {
        for pairs in 0..=count {
            let data = [vec![SYN; pairs], vec![0x64; count - pairs]].concat();
            for sb in 0..=0xFF {
                let symbols = spelled(&[0x10, 0x08, 0x50, sb], &data).len();
                let check = symbols - 5 - count - pairs;
                assert!(check == 1 || check == 2);
                greatest = greatest.max(symbols);
            }
        }
    }
    assert_eq!(greatest, WIRE_MAX);
}

#[test]
fn a_foreign_part_may_be_longer() {
    assert_eq!(spelled(&[0x10, 0x08, 0x50, 0xC4], &[SYN; 17]).len(), 40);
    assert_eq!(spelled(&[0x10, 0x08, 0x50, 0xC4], &[SYN; 20]).len(), 46);
}

#[test]
fn refusal_4_before_5_and_the_longest_is_taken_in() {
    let head = [0x10, 0x08, 0x50, 0xC4];
    let mut table = Table::new();
    table.attach_master(0x10).unwrap();
    for held in 0..4 {
        assert_eq!(table.telegrams(0), held);
        assert_eq!(table.queue(head, &[SYN; 17]), Err(4));
        assert_eq!(table.queue(head, &[SYN; 16]), Ok(()));
        assert_eq!(table.oldest(0).symbols().len(), 39);
    }
    assert_eq!(table.queue(head, &[SYN; 17]), Err(4));
    assert_eq!(table.queue(head, &[SYN; 16]), Err(5));
    assert_eq!(table.queue(head, &[]), Err(5));
    assert_eq!(table.queue([0x10, 0x08, 0x50, SYN], &[SYN; 17]), Err(3));
    assert_eq!(table.queue([0x10, 0x15, 0x50, SYN], &[SYN; 17]), Err(2));
    assert_eq!(table.queue([0x30, 0x15, 0x50, SYN], &[SYN; 17]), Err(1));
}

/// Good and bad in each of its places.
fn any_call(random: &mut Random) -> ([u8; 4], Vec<u8>) {
    let source = random.pick(&[0x00, 0x10, 0xFF, 0xFF, 0x30]);
    let target = random.pick(&[0x08, 0xFE, 0x10, 0x15, SYN]);
    let pb = if random.percent(5) { SYN } else { 0x50 };
    let len = random.pick(&[0, 3, 15, 16, 16, 16, 17, 18, 40]);
    let pairs = random.pick(&[0, 50, 100, 100]);
    let byte = |random: &mut Random| {
        if random.percent(pairs) {
            random.pick(&[SYN, ESC])
        } else {
            random.byte()
        }
    };
    ([source, target, pb, random.byte()], (0..len).map(|_| byte(random)).collect())
}

#[test]
fn no_call_is_refused_with_6() {
    let mut random = Random::new(8);
    let mut table = Table::new();
    for address in [0x00, 0x10, 0xFF] {
        table.attach_master(address).unwrap();
    }
    let (mut verdicts, mut longest) = ([0; 16], 0);
    for _ in 0..100_000 {
        let station = random.below(3) as u8;
        if table.telegrams(station) > 0 && random.percent(30) {
            longest = longest.max(table.oldest(station).symbols().len());
            table.drop_oldest(station);
        }
        let (head, data) = any_call(&mut random);
        verdicts[table.queue(head, &data).err().unwrap_or(0) as usize] += 1;
    }
    assert!(verdicts[..=5].iter().all(|&times| times > 1000), "{verdicts:?}");
    assert_eq!(verdicts[6..], [0; 10]);
    assert_eq!(longest, WIRE_MAX);
}

/// The telegrams that the source of a call holds, if it is attached.
fn held(bus: &Bus, source: u8) -> Option<u8> {
    let set = bus.table().set_at(source);
    (set != 0).then(|| bus.table().telegrams(set.trailing_zeros() as u8))
}

/// Made scenarios try a full queue with one byte too many and with the longest
/// telegram, and have that one as the fourth.
#[test]
fn made_calls_are_at_the_limit() {
    let (mut too_many, mut one_too_many, mut fourth) = (0, 0, 0);
    for seed in 0..1000 {
        let whole = maker::make(seed);
        let mut bus = Bus::new();
        for op in scenario::parse(&whole).unwrap_or_default() {
            let before = match op {
                Op::Queue { head, .. } => held(&bus, head[0]),
                _ => None,
            };
            let verdict = bench::operate(&mut bus, &op);
            bus.forget_events();
            let Op::Queue { head, data } = op else { continue };
            let longest = data.len() == 16 && spelled(&head, data).len() == 39;
            match (before, verdict) {
                (Some(4), Err(4)) => too_many += 1,
                (Some(4), Err(5)) if longest => one_too_many += 1,
                (Some(3), Ok(())) if longest => fourth += 1,
                _ => {}
            }
        }
    }
    assert!(too_many > 10 && one_too_many > 10 && fourth > 10);
}
