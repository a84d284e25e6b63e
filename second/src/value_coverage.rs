//! How often each thing came up that a field can ask for or do wrong.

use crate::scenario::{BadForm, MAX_BYTES};
use crate::table::Refusal;
use crate::types::{Fault, Type, Value, MISSING};
use std::collections::BTreeMap;
use std::fmt;

const READ: &[&str] = &["value", "missing", "no-value", "wrong-length"];

/// Every two bytes are a value or missing.
const READ_TWO: &[&str] = &["value", "missing", "wrong-length"];

/// Whole numbers are never between two steps, and have no bits that are none.
const WRITE_WHOLE: &[&str] = &["code", "missing", "no-kind", "other-kind", "out-of-range"];

const WRITE_FLOAT: &[&str] = &[
    "code",
    "minus-zero",
    "missing",
    "no-kind",
    "other-kind",
    "between-steps",
    "out-of-range",
    "nan",
    "infinite",
];

/// All faults of a block together; beside them traps for a sum that is taken
/// of too few shares or in too few bits.
const BLOCK: &[&str] = &[
    "17",
    "17-18",
    "17-19",
    "17-18-19",
    "18",
    "18-19",
    "19",
    "empty",
    "too-long",
    "first-eight-make-200",
    "200-past-256",
    "sum-100",
];

const GROUPS: [(&str, &[&str]); 11] = [
    ("read-bcd", READ),
    ("read-data1c", READ),
    ("read-data2b", READ_TWO),
    ("read-data2c", READ_TWO),
    ("write-bcd", WRITE_WHOLE),
    ("write-data1c", WRITE_FLOAT),
    ("write-data2b", WRITE_FLOAT),
    ("write-data2c", WRITE_FLOAT),
    ("shares", &["1", "2", "3", "4", "5", "6", "7", "8"]),
    ("block", BLOCK),
    ("form", &["good", "longest", "cut-header", "cut-value", "unknown-tag", "not-5", "too-long"]),
];

#[derive(Clone, Default)]
pub struct ValueCoverage {
    pub inputs: u64,
    pub lines: u64,
    counts: BTreeMap<(String, String), u64>,
}

impl ValueCoverage {
    fn count(&mut self, group: &str, name: &str) {
        *self.counts.entry((group.to_string(), name.to_string())).or_default() += 1;
    }

    /// One input; a bad form is one line, and all that is seen of it.
    pub fn of_form(bytes: &[u8], bad: Option<&BadForm>) -> ValueCoverage {
        let mut seen = ValueCoverage { inputs: 1, ..ValueCoverage::default() };
        seen.lines += bad.is_some() as u64;
        seen.count("form", form_name(bytes, bad));
        seen
    }

    pub fn read(&mut self, of: &Type, value: &Result<Value, Fault>) {
        self.lines += 1;
        let name = match value {
            Ok(Value::Steps(_)) => "value",
            Ok(Value::Missing) => "missing",
            Err(fault) => fault_name(*fault),
        };
        self.count(&format!("read-{}", of.name), name);
    }

    pub fn write(&mut self, of: &Type, kind: u8, bits: u32, code: &Result<Vec<u8>, Fault>) {
        self.lines += 1;
        let name = match code {
            Ok(_) if kind == MISSING => "missing",
            Ok(_) if bits == 0x8000_0000 => "minus-zero",
            Ok(_) => "code",
            Err(fault) => fault_name(*fault),
        };
        self.count(&format!("write-{}", of.name), name);
    }

    pub fn block(&mut self, codes: &[u8], faults: &[Refusal]) {
        self.lines += 1;
        if faults.is_empty() {
            return self.count("shares", &codes.len().to_string());
        }
        let names: Vec<String> = faults.iter().map(Refusal::to_string).collect();
        self.count("block", &names.join("-"));
        let sum = |codes: &[u8]| codes.iter().map(|&code| code as u32).sum::<u32>();
        let traps = [
            ("empty", codes.is_empty()),
            ("too-long", codes.len() > 8),
            ("first-eight-make-200", codes.len() > 8 && sum(&codes[..8]) == 200),
            ("200-past-256", faults == [19] && sum(codes) % 256 == 200),
            ("sum-100", faults == [19] && sum(codes) == 100),
        ];
        traps.iter().filter(|(_, here)| *here).for_each(|(name, _)| self.count("block", name));
    }

    pub fn add(&mut self, other: &ValueCoverage) {
        self.inputs += other.inputs;
        self.lines += other.lines;
        for (place, count) in &other.counts {
            *self.counts.entry(place.clone()).or_default() += count;
        }
    }

    pub fn of(&self, group: &str, name: &str) -> u64 {
        self.counts.get(&(group.to_string(), name.to_string())).copied().unwrap_or(0)
    }

    /// What a wild enough maker should have reached and has not.
    pub fn missing(&self) -> Vec<String> {
        let all =
            GROUPS.iter().flat_map(|(group, names)| names.iter().map(move |name| (group, name)));
        let never = all.filter(|(group, name)| self.of(group, name) == 0);
        never.map(|(group, name)| format!("{group}:{name}")).collect()
    }
}

fn fault_name(fault: Fault) -> &'static str {
    match fault {
        Fault::WrongLength => "wrong-length",
        Fault::NoValue => "no-value",
        Fault::NoKind => "no-kind",
        Fault::OtherKind => "other-kind",
        Fault::Nan => "nan",
        Fault::Infinite => "infinite",
        Fault::BetweenSteps => "between-steps",
        Fault::OutOfRange => "out-of-range",
    }
}

fn form_name(bytes: &[u8], bad: Option<&BadForm>) -> &'static str {
    let Some(bad) = bad else {
        return if bytes.len() == MAX_BYTES { "longest" } else { "good" };
    };
    match bytes[bad.offset..] {
        _ if bad.refusal == 15 => "too-long",
        [] | [_] | [_, _] => "cut-header",
        [_, high, low, ref after @ ..] if after.len() < high as usize * 256 + low as usize => {
            "cut-value"
        }
        [0x11..=0x14, ..] => "not-5",
        _ => "unknown-tag",
    }
}

impl fmt::Display for ValueCoverage {
    fn fmt(&self, f: &mut fmt::Formatter) -> fmt::Result {
        write!(f, "values inputs={} lines={}", self.inputs, self.lines)?;
        for (group, names) in GROUPS {
            write!(f, "\n  {group}")?;
            names.iter().try_for_each(|name| write!(f, " {name}={}", self.of(group, name)))?;
        }
        Ok(())
    }
}

#[cfg(test)]
mod tests {
    use super::*;
    use crate::maker;
    use crate::values;

    /// Else a count would be kept that no line shows.
    #[test]
    fn every_counted_name_is_in_the_list() {
        let mut total = ValueCoverage::default();
        (0..300).for_each(|seed| total.add(&values::run(&maker::make_fields(seed)).1));
        for (group, name) in total.counts.keys() {
            let names = GROUPS.iter().find(|(listed, _)| listed == group).unwrap().1;
            assert!(names.contains(&name.as_str()), "{group}:{name}");
        }
    }
}
