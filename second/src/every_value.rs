//! Every code to read and every exact value to write, as fields in as few
//! files as hold them.

use crate::dyadic::bits_of;
use crate::scenario::{push_field, MAX_BYTES};
use crate::types::{Type, PERCENT, TEMPERATURE, TYPES, WHOLE};

/// Bits at the edges of what a float can be; each goes with both signs.
pub const EDGES: [u32; 14] = [
    0x0000_0000, // zero
    0x0000_0001, // smallest subnormal
    0x0040_0000,
    0x007F_FFFF, // largest subnormal
    0x0080_0000, // smallest normal
    0x0080_0001,
    0x4B00_0000, // from here on floats are whole numbers
    0x4F00_0000, // past 32 bits
    0x5F00_0000, // past 64 bits
    0x7F7F_FFFF, // largest
    0x7F80_0000, // infinite
    0x7F80_0001, // signalling NaN
    0x7FC0_0000, // quiet NaN
    0x7FFF_FFFF,
];

/// Fields one behind the other; none is cut between two files.
#[derive(Default)]
struct Files {
    done: Vec<Vec<u8>>,
    last: Vec<u8>,
}

impl Files {
    fn push(&mut self, tag: u8, value: &[u8]) {
        if self.last.len() + 3 + value.len() > MAX_BYTES {
            self.done.push(std::mem::take(&mut self.last));
        }
        push_field(&mut self.last, tag, value, &[]);
    }

    fn read(&mut self, place: usize, code: &[u8]) {
        self.push(0x01 + place as u8, code);
    }

    fn write(&mut self, place: usize, kind: u8, bits: u32) {
        let [a, b, c, d] = bits.to_be_bytes();
        self.push(0x11 + place as u8, &[kind, a, b, c, d]);
    }

    /// A float and the ones beside it, one bit down and one bit up.
    fn write_around(&mut self, place: usize, kind: u8, bits: u32) {
        for near in [bits.wrapping_sub(1), bits, bits.wrapping_add(1)] {
            self.write(place, kind, near);
        }
    }
}

pub fn files() -> Vec<Vec<u8>> {
    let mut files = Files::default();
    for (place, of) in TYPES.iter().enumerate() {
        codes(&mut files, place, of);
        kinds(&mut files, place);
        edges(&mut files, place);
        if of.kind == WHOLE {
            whole_numbers(&mut files, place);
        } else {
            exact_values(&mut files, place, of);
        }
    }
    blocks(&mut files);
    files.done.push(files.last);
    files.done
}

fn codes(files: &mut Files, place: usize, of: &Type) {
    let size = of.missing.len();
    for code in 0..1u32 << (8 * size) {
        let bytes = code.to_le_bytes();
        files.read(place, &bytes[..size]);
        // 251 is odd: among its 262 multiples every low byte comes up.
        if size == 1 || code % 251 == 0 {
            files.read(place, &bytes[..size - 1]);
            files.read(place, &bytes[..size + 1]);
        }
    }
    files.read(place, &[of.missing, of.missing].concat());
}

/// Every kind, with bits that some type or other could write.
fn kinds(files: &mut Files, place: usize) {
    for kind in 0..=255 {
        for bits in [0, 42, bits_of(1, 1), bits_of(42, 0)] {
            files.write(place, kind, bits);
        }
    }
}

fn edges(files: &mut Files, place: usize) {
    for bits in EDGES {
        for kind in [WHOLE, PERCENT, TEMPERATURE] {
            files.write_around(place, kind, bits);
            files.write_around(place, kind, bits | 1 << 31);
        }
    }
}

/// The least that are out of range, and great ones whose low bits are not.
fn whole_numbers(files: &mut Files, place: usize) {
    (0..=300).for_each(|number| files.write(place, WHOLE, number));
    for bit in 8..32 {
        files.write(place, WHOLE, 1 << bit);
        files.write(place, WHOLE, 1 << bit | 42);
    }
    (0..=99).for_each(|number: u32| files.write(place, WHOLE, number.swap_bytes()));
}

/// All numbers of the type and some beyond, each with its neighbours; halves
/// of a step for a sample.
fn exact_values(files: &mut Files, place: usize, of: &Type) {
    let (least, greatest) = (of.numbers.start() - 300, of.numbers.end() + 300);
    for number in least..=greatest {
        files.write_around(place, of.kind, bits_of(number, of.halvings));
        if of.kind == PERCENT || number % 101 == 0 {
            files.write(place, of.kind, bits_of(2 * number + 1, of.halvings + 1));
        }
    }
}

/// All blocks of one share, and those of two that make 200 or nearly, or would
/// in eight bits.
fn blocks(files: &mut Files) {
    for first in 0..=255u8 {
        files.push(0x05, &[first]);
        for second in [199u8, 200, 201].map(|sum| sum.wrapping_sub(first)) {
            files.push(0x05, &[first, second]);
        }
    }
}
