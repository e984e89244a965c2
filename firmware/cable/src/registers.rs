//! Offsets and fields of the I2C registers, by RM0492's names ("I2C registers").

pub const CR1: u32 = 0x00;
pub const CR2: u32 = 0x04;
pub const OAR1: u32 = 0x08;
pub const OAR2: u32 = 0x0C;
pub const TIMINGR: u32 = 0x10;
pub const ISR: u32 = 0x18;
pub const ICR: u32 = 0x1C;
pub const RXDR: u32 = 0x24;
pub const TXDR: u32 = 0x28;

/// Fields of CR1.
pub mod cr1 {
    pub const PE: u32 = 1 << 0;
    pub const SBC: u32 = 1 << 16;
}

/// Fields of CR2.
pub mod cr2 {
    pub const SADD_7BIT: u32 = 0xFE;
    pub const RD_WRN: u32 = 1 << 10;
    pub const START: u32 = 1 << 13;
    pub const STOP: u32 = 1 << 14;
    pub const NACK: u32 = 1 << 15;
    pub const RELOAD: u32 = 1 << 24;
    pub const AUTOEND: u32 = 1 << 25;

    pub fn nbytes(cr2: u32) -> u8 {
        (cr2 >> 16) as u8
    }
}

/// Fields of OAR1.
pub mod oar1 {
    pub const OA1_7BIT: u32 = 0xFE;
    pub const OA1EN: u32 = 1 << 15;
}

/// Fields of ISR.
pub mod isr {
    pub const TXE: u32 = 1 << 0;
    pub const TXIS: u32 = 1 << 1;
    pub const RXNE: u32 = 1 << 2;
    pub const ADDR: u32 = 1 << 3;
    pub const NACKF: u32 = 1 << 4;
    pub const STOPF: u32 = 1 << 5;
    pub const TC: u32 = 1 << 6;
    pub const TCR: u32 = 1 << 7;
    pub const BERR: u32 = 1 << 8;
    pub const ARLO: u32 = 1 << 9;
    pub const BUSY: u32 = 1 << 15;
    /// ADDCODE, 23:17, and DIR, 16.
    pub const ADDCODE_DIR: u32 = 0xFF << 16;
    /// What ICR clears by a one in the same place: ADDR, NACKF, STOPF, BERR, ARLO.
    pub const CLEARED_BY_ICR: u32 = ADDR | NACKF | STOPF | BERR | ARLO;

    /// Both of them, as an address byte has them: seven bits of address, and 1 for a read.
    pub fn addcode_dir(address_byte: u8) -> u32 {
        u32::from(address_byte) << 16
    }
}
