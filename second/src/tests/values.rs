//! The program `values`. Lines and bits are worked out by hand from 02: 35.5 is
//! 100011.1 or 1.000111 times 2 to the 5, so 0 10000100 000111..., 420E0000.

use crate::scenario::push_field;
use crate::values;

const BCD: u8 = 0x01;
const DATA1C: u8 = 0x02;
const DATA2B: u8 = 0x03;
const DATA2C: u8 = 0x04;
const BLOCK: u8 = 0x05;
/// From the tag that reads a type to the one that writes it.
const WRITE: u8 = 0x10;

fn printed(bytes: &[u8]) -> String {
    String::from_utf8(values::run(bytes).0).unwrap()
}

/// The line of one field, without its end.
fn line(tag: u8, value: &[u8]) -> String {
    let mut bytes = Vec::new();
    push_field(&mut bytes, tag, value, &[]);
    printed(&bytes).strip_suffix('\n').unwrap().to_string()
}

fn written(of: u8, kind: u8, bits: u32) -> String {
    line(WRITE + of, &[&[kind], &bits.to_be_bytes()[..]].concat())
}

#[track_caller]
fn expect_read(of: u8, cases: &[(&[u8], &str)]) {
    for (code, wanted) in cases {
        assert_eq!(line(of, code), *wanted, "{code:02X?}");
    }
}

#[track_caller]
fn expect_written(of: u8, kind: u8, cases: &[(u32, &str)]) {
    for (bits, wanted) in cases {
        assert_eq!(written(of, kind, *bits), *wanted, "{bits:08X}");
    }
}

#[test]
fn bcd_is_read_by_its_digits() {
    for tens in 0..10 {
        for ones in 0..10 {
            let code = tens * 16 + ones;
            assert_eq!(line(BCD, &[code]), format!("whole {}", tens * 10 + ones));
        }
    }
    expect_read(BCD, &[(&[0xFF], "missing"), (&[0x0A], "refused 17"), (&[0xA0], "refused 17")]);
    let refused = (0..=255).filter(|&code| line(BCD, &[code]) == "refused 17").count();
    assert_eq!(refused, 256 - 100 - 1);
}

#[test]
fn data1c_is_read_in_halves() {
    expect_read(
        DATA1C,
        &[
            (&[0], "percent 0"),
            (&[1], "percent 0.5"),
            (&[0x23], "percent 17.5"),
            (&[0x47], "percent 35.5"),
            (&[199], "percent 99.5"),
            (&[200], "percent 100"),
            (&[255], "missing"),
        ],
    );
    (201..=254).for_each(|code| assert_eq!(line(DATA1C, &[code]), "refused 17", "{code}"));
}

#[test]
fn data2b_is_read_low_byte_first() {
    expect_read(
        DATA2B,
        &[
            (&[0x80, 0xFF], "temperature -0.5"),
            (&[0x00, 0x00], "temperature 0"),
            (&[0x01, 0x00], "temperature 0.00390625"),
            (&[0xFF, 0xFF], "temperature -0.00390625"),
            (&[0x80, 0x00], "temperature 0.5"),
            (&[0x00, 0x64], "temperature 100"),
            (&[0xFF, 0x7F], "temperature 127.99609375"),
            (&[0x01, 0x80], "temperature -127.99609375"),
            (&[0x00, 0x80], "missing"),
        ],
    );
}

#[test]
fn data2c_is_read_in_sixteenths() {
    expect_read(
        DATA2C,
        &[
            (&[0x01, 0x00], "temperature 0.0625"),
            (&[0xF8, 0xF7], "temperature -128.5"),
            (&[0x80, 0xFF], "temperature -8"),
            (&[0xFF, 0x7F], "temperature 2047.9375"),
            (&[0x01, 0x80], "temperature -2047.9375"),
            (&[0x00, 0x80], "missing"),
        ],
    );
}

#[test]
fn codes_of_another_length() {
    let long = [0xFF; 300];
    for of in [BCD, DATA1C] {
        expect_read(of, &[(&[], "refused 17"), (&[1, 1], "refused 17"), (&long, "refused 17")]);
    }
    for of in [DATA2B, DATA2C] {
        let cases: [&[u8]; 5] = [&[], &[0], &[0xFF], &[0, 0x80, 0], &long];
        cases.iter().for_each(|code| assert_eq!(line(of, code), "refused 17", "{code:?}"));
    }
}

#[test]
fn whole_numbers_are_written_as_digits() {
    expect_written(BCD, 0, &[(0, "code 00"), (7, "code 07"), (42, "code 42"), (99, "code 99")]);
    for number in [100, 0x99, 255, 256, 256 + 42, 65_536 + 42, 42 << 24, u32::MAX] {
        assert_eq!(written(BCD, 0, number), "refused 17", "{number}");
    }
}

#[test]
fn percents_are_written_exactly_or_not() {
    expect_written(
        DATA1C,
        1,
        &[
            (0x420E_0000, "code 47"),
            // 35, 0.5, 100.
            (0x420C_0000, "code 46"),
            (0x3F00_0000, "code 01"),
            (0x42C8_0000, "code C8"),
            // One bit beside 100, 100.5, 127.5 (255 halves), 0.25, -0.5.
            (0x42C8_0001, "refused 17"),
            (0x42C7_FFFF, "refused 17"),
            (0x42C9_0000, "refused 17"),
            (0x42FF_0000, "refused 17"),
            (0x3E80_0000, "refused 17"),
            (0xBF00_0000, "refused 17"),
        ],
    );
}

#[test]
fn temperatures_are_written_exactly_or_not() {
    expect_written(
        DATA2B,
        2,
        &[
            (0xBF00_0000, "code 80 FF"),
            (0x3B80_0000, "code 01 00"),
            (0x42FF_FE00, "code FF 7F"),
            (0xC2FF_FE00, "code 01 80"),
            // 1/512, 128, -128, one bit beside the greatest.
            (0x3B00_0000, "refused 17"),
            (0x4300_0000, "refused 17"),
            (0xC300_0000, "refused 17"),
            (0x42FF_FE01, "refused 17"),
            (0x42FF_FDFF, "refused 17"),
        ],
    );
    expect_written(
        DATA2C,
        2,
        &[
            (0xC300_8000, "code F8 F7"),
            (0xC300_0000, "code 00 F8"),
            (0x44FF_FE00, "code FF 7F"),
            (0xC4FF_FE00, "code 01 80"),
            // 1/256, 2048, -2048.
            (0x3B80_0000, "refused 17"),
            (0x4500_0000, "refused 17"),
            (0xC500_0000, "refused 17"),
        ],
    );
}

#[test]
fn minus_zero_is_written_as_zero() {
    for (of, kind, wanted) in
        [(DATA1C, 1, "code 00"), (DATA2B, 2, "code 00 00"), (DATA2C, 2, "code 00 00")]
    {
        expect_written(of, kind, &[(0, wanted), (1 << 31, wanted)]);
    }
}

#[test]
fn no_code_for_what_is_no_number_or_far_off() {
    let bits = [
        0x7F80_0000,
        0x7F80_0001,
        0x7FC0_0000,
        0x7FFF_FFFF,
        0x7F7F_FFFF,
        0x0000_0001,
        0x007F_FFFF,
        0x0080_0000,
        0x4F00_0000,
        0x5F00_0000,
    ];
    for (of, kind) in [(DATA1C, 1), (DATA2B, 2), (DATA2C, 2)] {
        for bits in bits {
            assert_eq!(written(of, kind, bits), "refused 17", "{bits:08X}");
            assert_eq!(written(of, kind, bits | 1 << 31), "refused 17", "-{bits:08X}");
        }
    }
}

#[test]
fn kinds() {
    for bits in [0, 42, 0x3F00_0000, 0x4228_0000] {
        for (of, own) in [(BCD, 0), (DATA1C, 1), (DATA2B, 2), (DATA2C, 2)] {
            let others = (0..=255).filter(|&kind| kind != own && kind != 3);
            others.for_each(|kind| assert_eq!(written(of, kind, bits), "refused 17", "{kind}"));
            let missing = if of < DATA2B { "code FF" } else { "code 00 80" };
            assert_eq!(written(of, 3, bits), missing);
        }
    }
    assert_eq!(written(DATA1C, 3, 0x7FC0_0000), "code FF");
}

#[test]
fn shares_that_make_a_hundred() {
    assert_eq!(line(BLOCK, &[100, 100]), "shares 50 50");
    assert_eq!(line(BLOCK, &[200]), "shares 100");
    assert_eq!(line(BLOCK, &[71, 129, 0]), "shares 35.5 64.5 0");
    assert_eq!(line(BLOCK, &[25; 8]), "shares 12.5 12.5 12.5 12.5 12.5 12.5 12.5 12.5");
}

#[test]
fn the_lowest_fault_of_a_block() {
    assert_eq!(line(BLOCK, &[0x46; 4]), "refused 19");
    for codes in [&[100u8] as &[u8], &[0], &[99, 100], &[101, 100], &[200, 200, 56], &[200; 8]] {
        assert_eq!(line(BLOCK, codes), "refused 19", "{codes:?}");
    }
    for codes in [&[255u8] as &[u8], &[200, 255], &[255, 200], &[255, 70], &[70, 255], &[255; 8]] {
        assert_eq!(line(BLOCK, codes), "refused 18", "{codes:?}");
    }
    let none: [&[u8]; 8] =
        [&[], &[25; 9], &[20; 10], &[255; 9], &[201], &[254], &[200, 201], &[201, 200]];
    none.iter().for_each(|codes| assert_eq!(line(BLOCK, codes), "refused 17", "{codes:?}"));
    // 17, 18 and 19 hold, whichever share comes first.
    let orders = [[0, 1, 2], [0, 2, 1], [1, 0, 2], [1, 2, 0], [2, 0, 1], [2, 1, 0]];
    for order in orders {
        assert_eq!(line(BLOCK, &order.map(|place: usize| [201, 255, 70][place])), "refused 17");
    }
}

#[test]
fn bad_form() {
    let good = [0x01, 0, 1, 0x42, 0x05, 0, 0];
    let bad: [&[u8]; 14] = [
        &[0x00, 0, 0],
        &[0x06, 0, 1, 0x64],
        &[0x10, 0, 5, 0, 0, 0, 0, 1],
        &[0x15, 0, 5, 0, 0, 0, 0, 1],
        &[0xFF, 0, 0],
        &[0x01],
        &[0x05, 0],
        &[0x01, 0, 1],
        &[0x03, 0, 2, 0x80],
        &[0x11, 0, 5, 0, 0, 0, 0],
        &[0x11, 0, 0],
        &[0x12, 0, 4, 1, 0, 0, 0],
        &[0x13, 0, 6, 2, 0, 0, 0, 0, 0],
        &[0x14, 5, 0, 2, 0, 0, 0, 0],
    ];
    for field in bad {
        let file = [&good[..], field].concat();
        assert_eq!(printed(&file), "refused 14 7\n", "{field:?}");
    }
    assert_eq!(printed(&good), "whole 42\nrefused 17\n");
    assert_eq!(printed(&[0x09, 0, 0, 0x0A]), "refused 14 0\n");
    // Five in the low byte of 261.
    let long = [&good[..], &[0x14, 1, 5], &[0; 261][..]].concat();
    assert_eq!(printed(&long), "refused 14 7\n");
}

#[test]
fn too_long_before_bad_form() {
    let full = [0x01, 0, 1, 0x42].repeat(16_384);
    assert_eq!(printed(&full), "whole 42\n".repeat(16_384));
    assert_eq!(printed(&[&full[..], &[0x01]].concat()), "refused 15 65536\n");
    assert_eq!(printed(&vec![0; 65_537]), "refused 15 65536\n");
    assert_eq!(printed(&vec![0; 65_536]), "refused 14 0\n");
    assert_eq!(printed(&[]), "");
}
