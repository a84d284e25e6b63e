//! The scenario file: fields of tag, length and value.

pub const MAX_BYTES: usize = 65_536;

/// One field of a scenario, already found to be of good form.
#[derive(Clone, Copy, Debug, PartialEq, Eq)]
pub enum Op<'a> {
    Master(u8),
    Slave(u8),
    Reply { address: u8, pb: u8, sb: u8, data: &'a [u8] },
    Queue { head: [u8; 4], data: &'a [u8] },
    Run(u16),
    Heard(u8),
    Quiet,
}

/// Why a file is not run: the refusal and the number printed after it.
#[derive(Clone, Copy, Debug, PartialEq, Eq)]
pub struct BadForm {
    pub refusal: u8,
    pub offset: usize,
}

/// The whole file is looked at before anything is run.
pub fn parse(bytes: &[u8]) -> Result<Vec<Op<'_>>, BadForm> {
    fields(bytes, operation)
}

/// A file of tagged fields, each as `meaning` takes it; none means bad form.
pub fn fields<'a, T>(
    bytes: &'a [u8],
    meaning: impl Fn(u8, &'a [u8]) -> Option<T>,
) -> Result<Vec<T>, BadForm> {
    if bytes.len() > MAX_BYTES {
        return Err(BadForm { refusal: 15, offset: MAX_BYTES });
    }
    let mut found = Vec::new();
    let mut offset = 0;
    while offset < bytes.len() {
        let bad = BadForm { refusal: 14, offset };
        let (tag, value) = field(&bytes[offset..]).ok_or(bad)?;
        found.push(meaning(tag, value).ok_or(bad)?);
        offset += 3 + value.len();
    }
    Ok(found)
}

/// Tag and value of the first field of the rest; none if it is cut.
fn field(rest: &[u8]) -> Option<(u8, &[u8])> {
    let (&[tag, high, low], after) = rest.split_first_chunk::<3>()?;
    let len = u16::from_be_bytes([high, low]) as usize;
    Some((tag, after.get(..len)?))
}

pub fn operation(tag: u8, value: &[u8]) -> Option<Op<'_>> {
    Some(match (tag, value) {
        (0x01, &[address]) => Op::Master(address),
        (0x02, &[address]) => Op::Slave(address),
        (0x03, &[address, pb, sb, ref data @ ..]) => Op::Reply { address, pb, sb, data },
        (0x04, &[qq, zz, pb, sb, ref data @ ..]) => Op::Queue { head: [qq, zz, pb, sb], data },
        (0x05, &[high, low]) => Op::Run(u16::from_be_bytes([high, low])),
        (0x06, &[symbol]) => Op::Heard(symbol),
        (0x07, &[]) => Op::Quiet,
        _ => return None,
    })
}

/// The field that a line is about where each has one; none if the form is bad.
pub fn field_of_line<'a, T>(
    bytes: &'a [u8],
    line: usize,
    meaning: impl Fn(u8, &'a [u8]) -> Option<T>,
) -> Option<Vec<u8>> {
    let whole = fields(bytes, |tag, value| {
        meaning(tag, value)?;
        let mut field = Vec::new();
        push_field(&mut field, tag, value, &[]);
        Some(field)
    });
    whole.ok()?.into_iter().nth(line.checked_sub(1)?)
}

/// The other way round: one field at the end of a file.
pub fn write(out: &mut Vec<u8>, op: &Op) {
    match *op {
        Op::Master(address) => push_field(out, 0x01, &[address], &[]),
        Op::Slave(address) => push_field(out, 0x02, &[address], &[]),
        Op::Reply { address, pb, sb, data } => push_field(out, 0x03, &[address, pb, sb], data),
        Op::Queue { head, data } => push_field(out, 0x04, &head, data),
        Op::Run(count) => push_field(out, 0x05, &count.to_be_bytes(), &[]),
        Op::Heard(symbol) => push_field(out, 0x06, &[symbol], &[]),
        Op::Quiet => push_field(out, 0x07, &[], &[]),
    }
}

/// Tag, length in two bytes, value (in two pieces): the tagged form.
pub fn push_field(out: &mut Vec<u8>, tag: u8, start: &[u8], rest: &[u8]) {
    let len = (start.len() + rest.len()) as u16;
    out.push(tag);
    out.extend_from_slice(&len.to_be_bytes());
    out.extend_from_slice(start);
    out.extend_from_slice(rest);
}
