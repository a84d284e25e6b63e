//! The program `values`: fields in, a line for each out.

use crate::dyadic::push_steps;
use crate::lines;
use crate::scenario;
use crate::types::{block_faults, Type, Value, PERCENT, TYPES, WHOLE};
use crate::value_coverage::ValueCoverage;

/// What a field asks for.
enum Ask<'a> {
    Read(&'static Type, &'a [u8]),
    Block(&'a [u8]),
    Write(&'static Type, u8, u32),
}

/// None if the field is of bad form.
fn asked(tag: u8, value: &[u8]) -> Option<Ask<'_>> {
    Some(match (tag, value) {
        (0x01..=0x04, code) => Ask::Read(&TYPES[tag as usize - 0x01], code),
        (0x05, codes) => Ask::Block(codes),
        (0x11..=0x14, &[kind, a, b, c, d]) => {
            Ask::Write(&TYPES[tag as usize - 0x11], kind, u32::from_be_bytes([a, b, c, d]))
        }
        _ => return None,
    })
}

/// What is printed for the fields, and what came up in them.
pub fn run(bytes: &[u8]) -> (Vec<u8>, ValueCoverage) {
    let mut out = Vec::new();
    let asks = scenario::fields(bytes, asked);
    let mut seen = ValueCoverage::of_form(bytes, asks.as_ref().err());
    match asks {
        Ok(asks) => asks.iter().for_each(|ask| answer(&mut out, &mut seen, ask)),
        Err(bad) => lines::push_form_refusal(&mut out, bad.refusal, bad.offset),
    }
    (out, seen)
}

fn answer(out: &mut Vec<u8>, seen: &mut ValueCoverage, ask: &Ask) {
    match *ask {
        Ask::Read(of, code) => {
            let value = of.read(code);
            seen.read(of, &value);
            match value {
                Ok(value) => push_value(out, of, value),
                Err(_) => lines::push_refusal(out, 17),
            }
        }
        Ask::Write(of, kind, bits) => {
            let code = of.write(kind, bits);
            seen.write(of, kind, bits, &code);
            match code {
                Ok(code) => lines::push_code(out, &code),
                Err(_) => lines::push_refusal(out, 17),
            }
        }
        Ask::Block(codes) => {
            let faults = block_faults(codes);
            seen.block(codes, &faults);
            // The lowest number is named, whichever share has the fault.
            match faults.iter().min() {
                Some(&number) => lines::push_refusal(out, number),
                None => push_shares(out, codes),
            }
        }
    }
}

fn push_value(out: &mut Vec<u8>, of: &Type, value: Value) {
    match value {
        Value::Missing => out.extend_from_slice(b"missing"),
        Value::Steps(number) => {
            let word: &[u8] = match of.kind {
                WHOLE => b"whole ",
                PERCENT => b"percent ",
                _ => b"temperature ",
            };
            out.extend_from_slice(word);
            push_steps(out, number, of.halvings);
        }
    }
    out.push(b'\n');
}

/// Codes of a good block are numbers of half percents.
fn push_shares(out: &mut Vec<u8>, codes: &[u8]) {
    out.extend_from_slice(b"shares");
    for &code in codes {
        out.push(b' ');
        push_steps(out, code as i64, 1);
    }
    out.push(b'\n');
}

/// The field that a line is about; none if the form is bad.
pub fn field_of_line(bytes: &[u8], line: usize) -> Option<Vec<u8>> {
    scenario::field_of_line(bytes, line, asked)
}
