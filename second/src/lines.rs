//! The bench lines. Digits are set by hand: this is where a busy run spends
//! its time otherwise.

use crate::event::{Event, Pair, Word};
use crate::table::Table;

pub const HEADER: &[u8] = b"ebus bench\n";

const HEX: &[u8; 16] = b"0123456789ABCDEF";

pub fn push_decimal(out: &mut Vec<u8>, number: u32) {
    let mut digits = [0u8; 10];
    let mut place = digits.len();
    let mut rest = number;
    loop {
        place -= 1;
        digits[place] = b'0' + (rest % 10) as u8;
        rest /= 10;
        if rest == 0 {
            break;
        }
    }
    out.extend_from_slice(&digits[place..]);
}

fn digits(byte: u8) -> [u8; 2] {
    [HEX[(byte >> 4) as usize], HEX[(byte & 0x0F) as usize]]
}

fn push_byte(out: &mut Vec<u8>, byte: u8) {
    let [high, low] = digits(byte);
    out.extend_from_slice(&[b' ', high, low]);
}

fn push_bytes(out: &mut Vec<u8>, bytes: &[u8]) {
    for &byte in bytes {
        push_byte(out, byte);
    }
}

pub fn push_event(out: &mut Vec<u8>, table: &Table, event: &Event) {
    push_decimal(out, event.slot);
    push_byte(out, table.name(event.station));
    match &event.word {
        Word::Owns => out.extend_from_slice(b" owns"),
        Word::Taken(_) => out.extend_from_slice(b" taken"),
        Word::Failed(_, failure) => {
            out.extend_from_slice(b" failed ");
            push_decimal(out, failure.number() as u32);
        }
        Word::Free(_) => {
            out.extend_from_slice(b" free ");
            push_decimal(out, event.elapsed());
        }
        Word::Given { part, .. } => {
            out.extend_from_slice(b" given");
            push_byte(out, part.source());
            push_bytes(out, &part.command());
            push_bytes(out, part.payload());
        }
        Word::Answer { slave, part } => {
            out.extend_from_slice(b" answer");
            push_byte(out, *slave);
            push_bytes(out, part.payload());
        }
    }
    out.push(b'\n');
}

/// A record of the log: its bytes with a blank between them.
pub fn push_record(out: &mut Vec<u8>, record: &[u8]) {
    if let Some((&tag, rest)) = record.split_first() {
        out.extend_from_slice(&digits(tag));
        push_bytes(out, rest);
    }
    out.push(b'\n');
}

/// The bytes of a written value.
pub fn push_code(out: &mut Vec<u8>, code: &[u8]) {
    out.extend_from_slice(b"code");
    push_bytes(out, code);
    out.push(b'\n');
}

pub fn push_refusal(out: &mut Vec<u8>, number: u8) {
    out.extend_from_slice(b"refused ");
    push_decimal(out, number as u32);
    out.push(b'\n');
}

pub fn push_form_refusal(out: &mut Vec<u8>, number: u8, offset: usize) {
    out.extend_from_slice(b"refused ");
    push_decimal(out, number as u32);
    out.push(b' ');
    push_decimal(out, offset as u32);
    out.push(b'\n');
}

/// Who is next, by address, or nobody.
pub fn push_next(out: &mut Vec<u8>, slot: u32, next: Option<u8>) {
    push_decimal(out, slot);
    out.extend_from_slice(b" next");
    match next {
        Some(master) => push_byte(out, master),
        None => out.extend_from_slice(b" nobody"),
    }
    out.push(b'\n');
}

/// Taken and failed of a pair, or of all that have no record.
pub fn push_count(out: &mut Vec<u8>, pair: Option<Pair>, [taken, failed]: [u32; 2]) {
    match pair {
        Some([source, target]) => {
            out.extend_from_slice(&digits(source));
            push_byte(out, target);
        }
        None => out.extend_from_slice(b"others"),
    }
    out.extend_from_slice(b" taken ");
    push_decimal(out, taken);
    out.extend_from_slice(b" failed ");
    push_decimal(out, failed);
    out.push(b'\n');
}

pub fn push_end(out: &mut Vec<u8>, slot: u32) {
    out.extend_from_slice(b"end ");
    push_decimal(out, slot);
    out.push(b'\n');
}
