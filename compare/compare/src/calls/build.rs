//! Calls described in few words, for the samples.

use oracle::Asked;

use super::case::Case;
use super::chip::*;
use super::pieces;

/// An operation that reads.
pub const READ: u32 = 0x1_0000;

/// A match of an address of seven bits.
pub const MATCH: u32 = addcode(0x50) | ADDR | TXE;

/// A ten-bit header.
pub const HEADER: u32 = addcode(0x7A) | ADDR | TXE;

/// A match at 0x78, which may be a ten-bit header and the address of a board of seven bits.
pub const BOARD: u32 = addcode(0x78) | ADDR | TXE;

/// The answers of a manual event after its status word.
pub const MANUAL: [u32; 2] = [0x1_0001, 0x01FF_8000];
pub const MANUAL_WRITE: [u32; 4] = [0x1_0001, 0x01FF_8000, 1, 0x8000];

pub fn call(number: u32) -> Case {
    Case {
        asked: Asked {
            call: number,
            ..Default::default()
        },
        ..Default::default()
    }
}

pub fn transaction(operations: &[u32]) -> Case {
    let mut case = call(7);
    case.asked.address = 0x50;
    case.asked.operations = operations.to_vec();
    case
}

/// A manual write of so many bytes, of which so many are asked for, and zeros past its end: call 26,
/// or 28 after its event.
pub fn manual_write(number: u32, length: usize, asked: usize) -> Case {
    let mut case = call(number).bytes(&counted(length));
    if number == 28 {
        case = case.answers(&[MATCH | DIR]).answers(&MANUAL);
    }
    let begun = (0..length).step_by(255).take_while(|&start| start <= asked);
    for start in begun {
        let is_last = length - start <= 255;
        let count = (asked - start).min(if is_last { usize::MAX } else { 255 });
        case = case.answers(&[0x01FF_0000]).asks_for(count);
    }
    case
}

impl Case {
    pub fn asking(mut self, change: impl FnOnce(&mut Asked)) -> Self {
        change(&mut self.asked);
        self
    }

    pub fn ten_bit(self, address: u32) -> Self {
        self.asking(|asked| {
            asked.ten_bit = true;
            asked.address = address;
        })
    }

    pub fn listening(self, kind: u32) -> Self {
        self.asking(|asked| asked.listen = kind)
    }

    pub fn timed(self, timingr: u32) -> Self {
        self.asking(|asked| asked.timingr = timingr)
    }

    pub fn owning(self, address: u32, secondary: Option<u32>, mask: Option<u32>) -> Self {
        self.asking(|asked| {
            asked.configured = true;
            asked.own_address = address;
            asked.secondary_address = secondary;
            asked.mask = mask;
        })
    }

    pub fn owning_ten_bit(self, address: u32, mask: Option<u32>) -> Self {
        let case = self.owning(address, None, mask);
        case.asking(|asked| asked.own_ten_bit = true)
    }

    pub fn bytes(mut self, bytes: &[u8]) -> Self {
        self.buffer = bytes.to_vec();
        self
    }

    pub fn zeros(self, count: usize) -> Self {
        self.bytes(&vec![0; count])
    }

    pub fn answers(mut self, answers: &[u32]) -> Self {
        self.answers.extend(answers);
        self
    }

    /// Bytes that come in, each with its RXNE.
    pub fn receives(mut self, count: u32) -> Self {
        self.answers.extend((0..count).flat_map(|i| [RXNE, i]));
        self
    }

    /// So many bytes are asked for.
    pub fn asks_for(mut self, count: usize) -> Self {
        self.answers.extend(vec![TXIS | TXE; count]);
        self
    }

    /// Answers by which a transaction goes to its end without a poll.
    pub fn goes_through(self) -> Self {
        let pieces = pieces::of(&self.asked.operations);
        let mut case = self;
        for (place, piece) in pieces.iter().enumerate() {
            case = case.answers(&[TXE, 0]);
            case = match piece.reads {
                true => case.receives(piece.size as u32),
                false => case.asks_for(piece.size),
            };
            case = case.answers(&[match pieces.get(place + 1) {
                Some(next) if next.reads == piece.reads => TCR,
                Some(_) => TC,
                None => STOPF,
            }]);
        }
        case
    }

    /// A NACK that finds nothing to flush.
    pub fn nacks(self) -> Self {
        self.answers(&[NACKF | TXE, TXE, TXE])
    }
}

/// Bytes that can be told from their neighbours.
pub fn counted(count: usize) -> Vec<u8> {
    (0..count).map(|i| (i % 251) as u8 + 1).collect()
}
