//! Expected lines are worked out by hand from 01 and 02. The part
//! 10 08 50 02 00 38 (P1) has six symbols; sent after the first AUTO-SYN in
//! slot 10 it takes slots 11 to 16, and 17 is its acknowledgement slot.

mod access;
mod answers;
mod broken_pair;
mod counts;
mod display;
mod elapsed;
mod exact;
mod foreign;
mod limits;
mod logs;
mod longest;
mod made;
mod parts;
mod refusals;
mod symbols;
mod values;

use crate::bench;
use crate::scenario::{self, Op};

fn master(address: u8) -> Op<'static> {
    Op::Master(address)
}

fn slave(address: u8) -> Op<'static> {
    Op::Slave(address)
}

fn queue(bytes: &[u8]) -> Op<'_> {
    Op::Queue { head: bytes[..4].try_into().unwrap(), data: &bytes[4..] }
}

fn reply(bytes: &[u8]) -> Op<'_> {
    Op::Reply { address: bytes[0], pb: bytes[1], sb: bytes[2], data: &bytes[3..] }
}

fn run(count: u16) -> Op<'static> {
    Op::Run(count)
}

fn heard(symbol: u8) -> Op<'static> {
    Op::Heard(symbol)
}

fn quiet() -> Op<'static> {
    Op::Quiet
}

fn all_heard(symbols: &[u8]) -> Vec<Op<'static>> {
    symbols.iter().map(|&symbol| Op::Heard(symbol)).collect()
}

/// What is printed for the operations, through the bytes of a file.
fn printed(ops: &[Op]) -> String {
    let mut bytes = Vec::new();
    ops.iter().for_each(|op| scenario::write(&mut bytes, op));
    printed_for(&bytes)
}

fn printed_for(bytes: &[u8]) -> String {
    String::from_utf8(bench::run(bytes).0).unwrap()
}

/// The lines between the header and the end line, and the end line itself.
#[track_caller]
fn expect(ops: &[Op], lines: &[&str]) {
    let mut wanted = String::from("ebus bench\n");
    for line in lines {
        wanted.push_str(line);
        wanted.push('\n');
    }
    assert_eq!(printed(ops), wanted);
}

/// The `owns` lines only.
#[track_caller]
fn expect_owners(ops: &[Op], lines: &[&str]) {
    let text = printed(ops);
    let owners: Vec<&str> = text.lines().filter(|line| line.ends_with("owns")).collect();
    assert_eq!(owners, lines);
}
