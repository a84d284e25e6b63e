//! Exact numbers in integers: floats are taken apart by their bits and never
//! computed with.

use std::cmp::Ordering;

/// A number of a float: a whole number, doubled or halved so many times.
#[derive(Clone, Copy, Debug, PartialEq, Eq)]
pub struct Dyadic {
    pub negative: bool,
    pub mantissa: u32,
    /// Of two; below 0 the mantissa is halved.
    pub power: i32,
}

/// The bits of a float that stand for no number.
#[derive(Clone, Copy, Debug, PartialEq, Eq)]
pub enum NoNumber {
    Nan,
    Infinite,
}

impl Dyadic {
    pub fn of_bits(bits: u32) -> Result<Dyadic, NoNumber> {
        let negative = bits >> 31 == 1;
        let exponent = (bits >> 23 & 0xFF) as i32;
        let fraction = bits & 0x7F_FFFF;
        match (exponent, fraction) {
            (255, 0) => Err(NoNumber::Infinite),
            (255, _) => Err(NoNumber::Nan),
            // Subnormal: there is no leading one, and the power is that of exponent 1.
            (0, _) => Ok(Dyadic { negative, mantissa: fraction, power: -149 }),
            _ => Ok(Dyadic { negative, mantissa: fraction | 1 << 23, power: exponent - 150 }),
        }
    }

    /// How many steps of 1 halved so many times; none if it lies between two.
    pub fn steps(self, halvings: u32) -> Option<i64> {
        if self.mantissa == 0 {
            return Some(0);
        }
        let zeros = self.mantissa.trailing_zeros();
        let odd = (self.mantissa >> zeros) as i64;
        let doublings = self.power + zeros as i32 + halvings as i32;
        if doublings < 0 {
            return None;
        }
        // Doubled 38 times it is past every range, and still fits the type.
        let size = odd << doublings.min(38);
        Some(if self.negative { -size } else { size })
    }
}

/// The other way round: the bits of so many steps. At most 24 bits of a number
/// fit, and all that come up here have fewer.
pub fn bits_of(steps: i64, halvings: u32) -> u32 {
    let sign = match steps.cmp(&0) {
        Ordering::Equal => return 0,
        Ordering::Less => 1 << 31,
        Ordering::Greater => 0,
    };
    let size = steps.unsigned_abs() as u32;
    let top = size.ilog2();
    assert!(top <= 23, "{steps} has more digits than a float");
    let exponent = 127 + top - halvings;
    sign | exponent << 23 | (size << (23 - top) & 0x7F_FFFF)
}

/// So many steps as a decimal, exactly and as short as can be: a digit for
/// each time that ten times the rest is taken, until nothing is left.
pub fn push_steps(out: &mut Vec<u8>, steps: i64, halvings: u32) {
    let size = steps.unsigned_abs();
    let below_one = (1 << halvings) - 1;
    if steps < 0 {
        out.push(b'-');
    }
    out.extend_from_slice((size >> halvings).to_string().as_bytes());
    let mut rest = size & below_one;
    if rest != 0 {
        out.push(b'.');
    }
    while rest != 0 {
        rest *= 10;
        out.push(b'0' + (rest >> halvings) as u8);
        rest &= below_one;
    }
}
