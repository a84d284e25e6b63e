//! The application types of 02 (E2): reading, writing and blocks of shares.
//! Every value is a coded number and what one step of it is worth.

use crate::dyadic::{Dyadic, NoNumber};
use crate::table::Refusal;
use std::ops::RangeInclusive;

/// The kinds of value as a field names them.
pub const WHOLE: u8 = 0;
pub const PERCENT: u8 = 1;
pub const TEMPERATURE: u8 = 2;
pub const MISSING: u8 = 3;

/// A row of 02's table.
pub struct Type {
    pub name: &'static str,
    pub kind: u8,
    /// A step is 1 halved so many times.
    pub halvings: u32,
    pub numbers: RangeInclusive<i64>,
    /// The code of a missing value; every other has as many bytes.
    pub missing: &'static [u8],
}

pub const TYPES: [Type; 4] = [
    Type { name: "bcd", kind: WHOLE, halvings: 0, numbers: 0..=99, missing: &[0xFF] },
    Type { name: "data1c", kind: PERCENT, halvings: 1, numbers: 0..=200, missing: &[0xFF] },
    signed("data2b", 8),
    signed("data2c", 4),
];

/// 8000h is missing, so -32,768 is no number of these.
const fn signed(name: &'static str, halvings: u32) -> Type {
    let numbers = -32_767..=32_767;
    Type { name, kind: TEMPERATURE, halvings, numbers, missing: &[0x00, 0x80] }
}

/// Why a code or a value is turned down; 02 has one number for all of these.
#[derive(Clone, Copy, Debug, PartialEq, Eq)]
pub enum Fault {
    WrongLength,
    NoValue,
    NoKind,
    OtherKind,
    Nan,
    Infinite,
    BetweenSteps,
    OutOfRange,
}

impl From<NoNumber> for Fault {
    fn from(bits: NoNumber) -> Fault {
        match bits {
            NoNumber::Nan => Fault::Nan,
            NoNumber::Infinite => Fault::Infinite,
        }
    }
}

#[derive(Clone, Copy, Debug, PartialEq, Eq)]
pub enum Value {
    Missing,
    Steps(i64),
}

impl Type {
    pub fn read(&self, code: &[u8]) -> Result<Value, Fault> {
        if code.len() != self.missing.len() {
            return Err(Fault::WrongLength);
        }
        if code == self.missing {
            return Ok(Value::Missing);
        }
        let number = self.number(code).filter(|number| self.numbers.contains(number));
        number.map(Value::Steps).ok_or(Fault::NoValue)
    }

    fn number(&self, code: &[u8]) -> Option<i64> {
        let number = match *code {
            [byte] if self.kind == WHOLE => {
                let (tens, ones) = (byte / 16, byte % 16);
                return (tens < 10 && ones < 10).then(|| (tens * 10 + ones) as i64);
            }
            [byte] => byte as i64,
            [low, high] => low as i64 + 256 * high as i64,
            _ => return None,
        };
        Some(if number < 32_768 { number } else { number - 65_536 })
    }

    /// The four bytes are a whole number or the bits of a float.
    pub fn write(&self, kind: u8, bits: u32) -> Result<Vec<u8>, Fault> {
        let number = match kind {
            MISSING => return Ok(self.missing.to_vec()),
            4.. => return Err(Fault::NoKind),
            _ if kind != self.kind => return Err(Fault::OtherKind),
            WHOLE => bits as i64,
            _ => Dyadic::of_bits(bits)?.steps(self.halvings).ok_or(Fault::BetweenSteps)?,
        };
        if !self.numbers.contains(&number) {
            return Err(Fault::OutOfRange);
        }
        Ok(self.code(number))
    }

    fn code(&self, number: i64) -> Vec<u8> {
        let plain = if self.kind == WHOLE { number / 10 * 16 + number % 10 } else { number };
        plain.to_le_bytes()[..self.missing.len()].to_vec()
    }
}

/// A block of shares is looked through for every fault; none if it is good.
pub fn block_faults(codes: &[u8]) -> Vec<Refusal> {
    let percents = &TYPES[1];
    let shares: Vec<_> = codes.iter().map(|&code| percents.read(&[code])).collect();
    let present = shares.iter().filter_map(|share| match share {
        Ok(Value::Steps(number)) => Some(number),
        _ => None,
    });
    let sum: i64 = present.sum();
    let no_block = codes.is_empty() || codes.len() > 8;
    let mut faults = Vec::new();
    if no_block || shares.iter().any(|share| share.is_err()) {
        faults.push(17);
    }
    if shares.contains(&Ok(Value::Missing)) {
        faults.push(18);
    }
    if sum != 200 {
        faults.push(19);
    }
    faults
}
