//! What has been read of the part that is on the wire.
//!
//! Everybody hears the same symbols, so one intake serves all who are still
//! in step. An answer is a part that begins at the place of NN.

use crate::wire::{crc_step, goes_as_pair, is_master, ESC, MAX_DATA, SYN};

const QQ: usize = 0;
const ZZ: usize = 1;
const NN: usize = 4;
const DATA: usize = 5;

/// A pair whose second symbol is none of 00, 01 and AA (02, E6).
#[derive(Clone, Copy, PartialEq, Eq, Debug)]
pub struct BrokenPair {
    /// Of the A9, in wire symbols from the part's first, which is 0.
    pub position: u8,
    /// The one after the A9.
    pub symbol: u8,
}

/// What one more symbol did to the part.
#[derive(Clone, Copy, PartialEq, Eq, Debug)]
pub enum Fed {
    More,
    /// The target address has just been read.
    Target,
    /// Nobody can read on: a wrong QQ or an A9 out of place.
    Misplaced,
    /// Nobody can read on after this either.
    BrokenPair(BrokenPair),
    /// An NN above 16, and nobody reads on.
    OverLong,
    /// The part is over; false for a wrong CRC.
    Whole(bool),
}

#[derive(Clone, Copy)]
pub struct Intake {
    bytes: [u8; DATA + MAX_DATA],
    /// Where the part begins, and what is read next.
    first: u8,
    place: u8,
    register: u8,
    escaped: bool,
}

impl Intake {
    pub fn master_part() -> Intake {
        Intake::beginning_at(QQ)
    }

    pub fn answer() -> Intake {
        Intake::beginning_at(NN)
    }

    fn beginning_at(first: usize) -> Intake {
        let first = first as u8;
        Intake { bytes: [0; DATA + MAX_DATA], first, place: first, register: 0, escaped: false }
    }

    pub fn feed(&mut self, symbol: u8) -> Fed {
        let place = self.place as usize;
        if place >= DATA {
            return self.feed_tail(place, symbol);
        }
        self.bytes[place] = symbol;
        let allowed = match place {
            QQ => is_master(symbol),
            NN => true,
            _ => symbol != ESC,
        };
        if !allowed {
            return Fed::Misplaced;
        }
        if place == NN && symbol as usize > MAX_DATA {
            return Fed::OverLong;
        }
        self.register = crc_step(self.register, symbol);
        self.place += 1;
        if place == ZZ {
            Fed::Target
        } else {
            Fed::More
        }
    }

    /// Data and check symbol: the only places where pairs stand.
    fn feed_tail(&mut self, place: usize, symbol: u8) -> Fed {
        let at_crc = place == DATA + self.nn();
        let expected = self.register;
        if !at_crc {
            self.register = crc_step(self.register, symbol);
        }
        let value = match (self.escaped, symbol) {
            (false, ESC) => {
                self.escaped = true;
                return Fed::More;
            }
            (false, plain) => plain,
            (true, 0x00) => ESC,
            (true, 0x01) => SYN,
            (true, symbol) => {
                return Fed::BrokenPair(BrokenPair { position: self.symbols_read(), symbol })
            }
        };
        self.escaped = false;
        if at_crc {
            return Fed::Whole(value == expected);
        }
        self.bytes[place] = value;
        self.place += 1;
        Fed::More
    }

    /// How many symbols all that has been read took on the wire: one for each
    /// byte, and one more for each that goes as a pair.
    fn symbols_read(&self) -> u8 {
        let read = &self.bytes[self.first as usize..self.place as usize];
        let pairs = read.iter().filter(|&&byte| goes_as_pair(byte)).count();
        (read.len() + pairs) as u8
    }

    /// The same for a whole, sound part with its check symbol.
    pub fn symbols(&self) -> usize {
        self.symbols_read() as usize + 1 + usize::from(goes_as_pair(self.register))
    }

    fn nn(&self) -> usize {
        self.bytes[NN] as usize
    }

    pub fn source(&self) -> u8 {
        self.bytes[QQ]
    }

    pub fn target(&self) -> u8 {
        self.bytes[ZZ]
    }

    /// PB and SB.
    pub fn command(&self) -> [u8; 2] {
        [self.bytes[2], self.bytes[3]]
    }

    /// NN and the data it counts; to be asked only of a whole, sound part.
    pub fn payload(&self) -> &[u8] {
        &self.bytes[NN..DATA + self.nn()]
    }

    /// True until the first symbol of the part has been read.
    pub fn untouched(&self) -> bool {
        self.place as usize == QQ
    }

    /// A symbol that would carry the part on; for the scenario maker.
    pub fn next_sound(&self, source: u8, target: u8, filler: u8) -> u8 {
        match self.place as usize {
            QQ => source,
            ZZ => target,
            NN => filler % 4,
            _ if self.at_check() => self.check_symbol(),
            _ if self.escaped => filler & 1,
            _ => filler,
        }
    }

    fn check_symbol(&self) -> u8 {
        match (self.escaped, self.register) {
            (true, register) => (register == SYN) as u8,
            (false, SYN | ESC) => ESC,
            (false, plain) => plain,
        }
    }

    /// The last data symbol with which the check symbol becomes the wanted
    /// one, if that is the next place and a plain symbol does it.
    pub fn steer(&self, wanted: u8) -> Option<u8> {
        let last = DATA + self.nn();
        let at_last = self.place as usize >= DATA && self.place as usize + 1 == last;
        let symbol = crc_step(self.register, 0) ^ wanted;
        (at_last && !self.escaped && !goes_as_pair(symbol)).then_some(symbol)
    }

    /// The check symbol stands next and is SYN, so it has to go as a pair.
    pub fn check_is_syn(&self) -> bool {
        self.at_check() && !self.escaped && self.register == SYN
    }

    pub fn in_escape(&self) -> bool {
        self.escaped
    }

    /// The last byte read came as a pair.
    pub fn behind_pair(&self) -> bool {
        self.place > self.first && goes_as_pair(self.bytes[self.place as usize - 1])
    }

    pub fn at_count(&self) -> bool {
        self.place as usize == NN
    }

    pub fn at_check(&self) -> bool {
        self.place as usize >= DATA && self.place as usize == DATA + self.nn()
    }
}
