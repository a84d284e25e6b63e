//! Exact numbers, and what must hold for every code, every value and every
//! made input of `values`. Bits are worked out by hand.

use crate::compare::value_coverage;
use crate::dyadic::{bits_of, push_steps, Dyadic, NoNumber};
use crate::every_value;
use crate::maker;
use crate::random::Random;
use crate::types::{Type, Value, TYPES};
use crate::value_coverage::ValueCoverage;
use crate::values;
use std::collections::HashMap;

#[test]
fn decimals() {
    let decimal = |steps, halvings| {
        let mut out = Vec::new();
        push_steps(&mut out, steps, halvings);
        String::from_utf8(out).unwrap()
    };
    assert_eq!(decimal(0, 0), "0");
    assert_eq!(decimal(0, 8), "0");
    assert_eq!(decimal(42, 0), "42");
    assert_eq!(decimal(1, 8), "0.00390625");
    assert_eq!(decimal(-1, 8), "-0.00390625");
    assert_eq!(decimal(3, 4), "0.1875");
    assert_eq!(decimal(10 * 256 + 64, 8), "10.25");
    assert_eq!(decimal(-160, 4), "-10");
}

#[test]
fn floats_taken_apart() {
    let number = |negative, mantissa, power| Ok(Dyadic { negative, mantissa, power });
    assert_eq!(Dyadic::of_bits(0x3F80_0000), number(false, 1 << 23, -23));
    assert_eq!(Dyadic::of_bits(0xBF80_0001), number(true, 1 << 23 | 1, -23));
    assert_eq!(Dyadic::of_bits(0x0000_0001), number(false, 1, -149));
    assert_eq!(Dyadic::of_bits(0x0080_0000), number(false, 1 << 23, -149));
    assert_eq!(Dyadic::of_bits(0x7F7F_FFFF), number(false, 0xFF_FFFF, 104));
    assert_eq!(Dyadic::of_bits(0xFF80_0000), Err(NoNumber::Infinite));
    assert_eq!(Dyadic::of_bits(0x7F80_0001), Err(NoNumber::Nan));
    // 35.5 is 71 halves, and no whole number; 2 to the 127 is far past 16 bits.
    let steps = |bits, halvings| Dyadic::of_bits(bits).unwrap().steps(halvings);
    assert_eq!(steps(0x420E_0000, 1), Some(71));
    assert_eq!(steps(0x420E_0000, 0), None);
    assert_eq!(steps(0xC20E_0000, 8), Some(-71 * 128));
    assert!(steps(0x7F00_0000, 8) > Some(32_767) && steps(0xFF00_0000, 8) < Some(-32_767));
}

#[test]
fn bits_of_steps() {
    assert_eq!(bits_of(0, 8), 0);
    assert_eq!(bits_of(71, 1), 0x420E_0000);
    assert_eq!(bits_of(-128, 8), 0xBF00_0000);
    assert_eq!(bits_of(1, 8), 0x3B80_0000);
    assert_eq!(bits_of(-2_056, 4), 0xC300_8000);
    assert_eq!(bits_of(32_767, 8), 0x42FF_FE00);
    assert_eq!(bits_of(-32_767, 4), 0xC4FF_FE00);
}

/// A number in the one way to write it: the mantissa odd, or all of it 0.
fn plain(number: Dyadic) -> (bool, u32, i32) {
    match number.mantissa.checked_ilog2() {
        None => (false, 0, 0),
        Some(_) => {
            let zeros = number.mantissa.trailing_zeros();
            (number.negative, number.mantissa >> zeros, number.power + zeros as i32)
        }
    }
}

/// What each code of a type is read as.
fn all_codes(of: &Type) -> HashMap<(bool, u32, i32), Vec<u8>> {
    let mut codes = HashMap::new();
    for number in 0..1u32 << (8 * of.missing.len()) {
        let code = &number.to_le_bytes()[..of.missing.len()];
        if let Ok(Value::Steps(steps)) = of.read(code) {
            let (negative, mantissa) = (steps < 0, steps.unsigned_abs() as u32);
            let power = -(of.halvings as i32);
            let before = codes.insert(plain(Dyadic { negative, mantissa, power }), code.to_vec());
            assert_eq!(before, None, "two codes for one value");
        }
    }
    codes
}

/// The words of 02 themselves: a value is written as the code that is read as
/// exactly that value, and refused if there is none.
#[test]
fn written_is_the_code_that_is_read_so() {
    let mut random = Random::new(2);
    for of in &TYPES[1..] {
        let codes = all_codes(of);
        for _ in 0..300_000 {
            let near = bits_of(random.below(80_000) as i64 - 40_000, of.halvings);
            let bits = match random.below(3) {
                0 => near,
                1 => near ^ 1 << random.below(32),
                _ => random.next() as u32,
            };
            let number = Dyadic::of_bits(bits).ok();
            let wanted = number.and_then(|number| codes.get(&plain(number)));
            assert_eq!(of.write(of.kind, bits).ok().as_ref(), wanted, "{bits:08X}");
        }
        for (code, steps) in codes.values().map(|code| (code, of.read(code))) {
            let Ok(Value::Steps(steps)) = steps else { panic!("{code:?}") };
            assert_eq!(of.write(of.kind, bits_of(steps, of.halvings)).as_ref(), Ok(code));
        }
    }
}

#[test]
fn every_value_is_every_value() {
    let files = every_value::files();
    let mut total = ValueCoverage::default();
    files.iter().for_each(|file| total.add(&values::run(file).1));
    assert!(files.iter().all(|file| file.len() <= 65_536));
    assert!(files[..files.len() - 1].iter().all(|file| file.len() > 65_000));
    let (read, none) = (["read-bcd", "read-data1c", "read-data2b", "read-data2c"], "no-value");
    assert_eq!(read.map(|group| total.of(group, "value")), [100, 201, 65_535, 65_535]);
    assert_eq!(read.map(|group| total.of(group, "missing")), [1; 4]);
    assert_eq!(read.map(|group| total.of(group, none)), [155, 54, 0, 0]);
    let ends = |file: &Vec<u8>| values::run(file).0.iter().filter(|&&byte| byte == b'\n').count();
    assert_eq!(total.lines, files.iter().map(ends).sum::<usize>() as u64);
}

#[test]
fn maker_reaches_everything() {
    assert_eq!(value_coverage(500, 1).missing(), Vec::<String>::new());
    assert_eq!(maker::make_fields(7), maker::make_fields(7));
    assert_ne!(maker::make_fields(7), maker::make_fields(8));
}
