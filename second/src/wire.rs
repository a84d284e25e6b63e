//! Symbols, addresses, the check symbol and the wire form of a part.

pub const SYN: u8 = 0xAA;
pub const ESC: u8 = 0xA9;
pub const ACK: u8 = 0x00;
pub const NAK: u8 = 0xFF;
pub const BROADCAST: u8 = 0xFE;
pub const MAX_DATA: usize = 16;

/// What a wire buffer holds: the longest part. QQ ZZ PB SB NN go as they are;
/// sixteen data bytes and the check symbol may all go as pairs.
pub const WIRE_MAX: usize = 39;

/// x^8 + x^7 + x^4 + x^3 + x + 1 without its leading term.
const POLYNOMIAL: u8 = 0x9B;

fn is_master_half(half: u8) -> bool {
    matches!(half, 0x0 | 0x1 | 0x3 | 0x7 | 0xF)
}

pub fn is_master(address: u8) -> bool {
    is_master_half(address >> 4) && is_master_half(address & 0x0F)
}

/// A slave address is whatever is neither a master, the broadcast, nor one of
/// the two symbols that are never addresses.
pub fn is_slave(address: u8) -> bool {
    !matches!(address, SYN | ESC | BROADCAST) && !is_master(address)
}

/// FF gives 04: the sum simply wraps.
pub fn slave_of(master: u8) -> u8 {
    master.wrapping_add(5)
}

/// The priority class of a master, or the low half of any symbol.
pub fn class(symbol: u8) -> u8 {
    symbol & 0x0F
}

/// Priority class first, then sub-address: the order among masters.
pub fn rank(master: u8) -> (u8, u8) {
    (class(master), master >> 4)
}

/// In data and in the check symbol.
pub fn goes_as_pair(value: u8) -> bool {
    matches!(value, SYN | ESC)
}

/// One feeding of the check register, bit by bit: eight multiplications by x,
/// each reduced at once, then the symbol is added.
pub fn crc_step(register: u8, symbol: u8) -> u8 {
    let mut value = register;
    for _ in 0..8 {
        let carry = (value >> 7).wrapping_neg() & POLYNOMIAL;
        value = (value << 1) ^ carry;
    }
    value ^ symbol
}

/// The symbols of a part, check symbol included, however many they are: a
/// foreign device may send more than a buffer here holds. The check symbol is
/// taken over the expanded form.
pub fn spelled(head: &[u8], data: &[u8]) -> Vec<u8> {
    let mut symbols = Vec::with_capacity(WIRE_MAX);
    symbols.extend_from_slice(head);
    symbols.push(data.len() as u8);
    for &value in data {
        push_expanded(&mut symbols, value);
    }
    let crc = symbols.iter().fold(0, |register, &symbol| crc_step(register, symbol));
    push_expanded(&mut symbols, crc);
    symbols
}

fn push_expanded(symbols: &mut Vec<u8>, value: u8) {
    match value {
        SYN => symbols.extend([ESC, 0x01]),
        ESC => symbols.extend([ESC, 0x00]),
        plain => symbols.push(plain),
    }
}

/// The symbols of one part as a station here sends them.
#[derive(Clone, Copy)]
pub struct Wire {
    symbols: [u8; WIRE_MAX],
    len: u8,
}

impl Wire {
    pub const EMPTY: Wire = Wire { symbols: [0; WIRE_MAX], len: 0 };

    pub fn master_part(head: [u8; 4], data: &[u8]) -> Wire {
        Wire::build(&head, data)
    }

    pub fn answer(data: &[u8]) -> Wire {
        Wire::build(&[], data)
    }

    /// For at most 16 data bytes; a part that does not fit ends the program.
    fn build(head: &[u8], data: &[u8]) -> Wire {
        let symbols = spelled(head, data);
        let mut wire = Wire::EMPTY;
        wire.symbols[..symbols.len()].copy_from_slice(&symbols);
        wire.len = symbols.len() as u8;
        wire
    }

    pub fn symbols(&self) -> &[u8] {
        &self.symbols[..self.len as usize]
    }

    pub fn at(&self, position: usize) -> u8 {
        self.symbols[position]
    }

    /// QQ and ZZ of a master part; neither ever goes as a pair of symbols.
    pub fn addresses(&self) -> [u8; 2] {
        [self.at(0), self.at(1)]
    }
}
