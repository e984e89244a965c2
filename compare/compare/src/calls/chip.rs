//! Registers and flags by RM0492, as far as answers are chosen and logs are read by them.

use oracle::Access;

pub const CR1: u32 = 0x00;
pub const CR2: u32 = 0x04;
pub const OAR1: u32 = 0x08;
pub const OAR2: u32 = 0x0C;
pub const ISR: u32 = 0x18;
pub const ICR: u32 = 0x1C;
pub const RXDR: u32 = 0x24;
pub const TXDR: u32 = 0x28;

/// Added to the offset where an access is a write.
pub const WRITTEN: u32 = 0x100;

pub const PE: u32 = 0x1;
pub const START: u32 = 0x2000;
pub const RELOAD: u32 = 0x0100_0000;
pub const AUTOEND: u32 = 0x0200_0000;

/// OAR1: the own address, that it has ten bits, and that it is answered to.
pub const OA1: u32 = 0x3FF;
pub const OA1MODE: u32 = 0x400;
pub const OA1EN: u32 = 0x8000;

pub const TXE: u32 = 0x01;
pub const TXIS: u32 = 0x02;
pub const RXNE: u32 = 0x04;
pub const ADDR: u32 = 0x08;
pub const NACKF: u32 = 0x10;
pub const STOPF: u32 = 0x20;
pub const TC: u32 = 0x40;
pub const TCR: u32 = 0x80;
pub const BERR: u32 = 0x100;
pub const ARLO: u32 = 0x200;
pub const DIR: u32 = 0x1_0000;

/// ISR's ADDCODE.
pub const fn addcode(address: u32) -> u32 {
    (address & 0x7F) << 17
}

/// The ADDCODE that an ISR word has.
pub const fn addcode_of(status: u32) -> u32 {
    status >> 17 & 0x7F
}

/// Whether the entry at this place puts a byte out: each TXDR write does but a flush, two entries
/// after a written ICR 0x10 (document 01).
pub fn puts_out(log: &[Access], place: usize) -> bool {
    let after_nack = place >= 2 && log[place - 2] == [WRITTEN + ICR, NACKF];
    log[place][0] == WRITTEN + TXDR && !after_nack
}

/// How many bytes a log puts out.
pub fn put_out(log: &[Access]) -> usize {
    (0..log.len()).filter(|&place| puts_out(log, place)).count()
}

/// The word that a register was read as last.
pub fn last_read(log: &[Access], register: u32) -> Option<u32> {
    let entry = log.iter().rev().find(|entry| entry[0] == register);
    entry.map(|entry| entry[1])
}
