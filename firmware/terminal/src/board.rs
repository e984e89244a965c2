//! A simulated I2C peripheral whose bus has one scoreboard: a memory of 600 bytes. The first byte of
//! a write says from which place on it is written or read.

use huskerivory::Registers;

pub const ADDRESS: u8 = 0x50;

const PLACES: usize = 600;

const CR1: u32 = 0x00;
const CR2: u32 = 0x04;
const ISR: u32 = 0x18;
const ICR: u32 = 0x1C;
const RXDR: u32 = 0x24;
const TXDR: u32 = 0x28;

const CR2_SADD: u32 = 0x3FF;
const CR2_RD_WRN: u32 = 1 << 10;
const CR2_START: u32 = 1 << 13;
const CR2_RELOAD: u32 = 1 << 24;
const CR2_AUTOEND: u32 = 1 << 25;

const ISR_TXE: u32 = 1 << 0;
const ISR_TXIS: u32 = 1 << 1;
const ISR_RXNE: u32 = 1 << 2;
const ISR_NACKF: u32 = 1 << 4;
const ISR_STOPF: u32 = 1 << 5;
const ISR_TC: u32 = 1 << 6;
const ISR_TCR: u32 = 1 << 7;

/// What happened since this was last asked.
#[derive(Clone, Copy, Default)]
pub struct News {
    /// START conditions on the bus.
    pub starts: u32,
    /// Bytes that the board took.
    pub taken: u32,
    /// Register accesses.
    pub accesses: u32,
}

pub struct Board {
    cr1: u32,
    cr2: u32,
    isr: u32,
    /// The bytes that the running piece still has.
    left: u32,
    card: [u8; PLACES],
    /// The place of the next byte, once a write has said it.
    place: Option<usize>,
    /// How many bytes the board acknowledges before it gives up.
    patience: u32,
    news: News,
}

impl Board {
    pub fn new() -> Self {
        Board {
            cr1: 0,
            cr2: 0,
            isr: ISR_TXE,
            left: 0,
            card: [0; PLACES],
            place: Some(0),
            patience: u32::MAX,
            news: News::default(),
        }
    }

    pub fn gives_up_after(&mut self, bytes: u32) {
        self.patience = bytes;
    }

    pub fn news(&mut self) -> News {
        core::mem::take(&mut self.news)
    }

    fn start(&mut self, cr2: u32) {
        self.cr2 = cr2 & !CR2_START;
        self.left = cr2 >> 16 & 0xFF;
        self.isr &= !(ISR_TC | ISR_TCR);
        if cr2 & CR2_START != 0 {
            self.news.starts += 1;
            if cr2 & CR2_SADD != u32::from(ADDRESS) << 1 {
                return self.not_acknowledged();
            }
            if cr2 & CR2_RD_WRN == 0 {
                self.place = None;
            }
        }
        self.go_on();
    }

    fn not_acknowledged(&mut self) {
        self.isr |= ISR_NACKF | ISR_STOPF;
    }

    /// What the peripheral says before the next byte, or after the last.
    fn go_on(&mut self) {
        self.isr |= match (self.left, self.cr2) {
            (0, cr2) if cr2 & CR2_AUTOEND != 0 => ISR_STOPF,
            (0, cr2) if cr2 & CR2_RELOAD != 0 => ISR_TCR,
            (0, _) => ISR_TC,
            (_, cr2) if cr2 & CR2_RD_WRN != 0 => ISR_RXNE,
            _ => ISR_TXIS,
        };
    }

    fn take(&mut self, byte: u8) {
        self.isr &= !ISR_TXIS;
        if self.patience == 0 {
            return self.not_acknowledged();
        }
        self.patience -= 1;
        self.news.taken += 1;
        match self.next_place() {
            Some(place) => *place = byte,
            None => self.place = Some(usize::from(byte)),
        }
        self.moved();
    }

    fn give(&mut self) -> u8 {
        self.isr &= !ISR_RXNE;
        let byte = self.next_place().copied();
        self.moved();
        byte.unwrap_or(0)
    }

    /// The place of the next byte, which goes round.
    fn next_place(&mut self) -> Option<&mut u8> {
        let place = self.place? % PLACES;
        self.place = Some(place + 1);
        self.card.get_mut(place)
    }

    fn moved(&mut self) {
        self.left = self.left.saturating_sub(1);
        self.go_on();
    }
}

impl Registers for Board {
    fn read(&mut self, offset: u32) -> u32 {
        self.news.accesses += 1;
        match offset {
            CR1 => self.cr1,
            CR2 => self.cr2,
            ISR => self.isr,
            RXDR => u32::from(self.give()),
            _ => 0,
        }
    }

    fn write(&mut self, offset: u32, value: u32) {
        self.news.accesses += 1;
        match offset {
            CR1 => self.cr1 = value,
            CR2 => self.start(value),
            ISR => self.isr |= value & ISR_TXE,
            ICR => self.isr &= !value,
            TXDR => self.take(value as u8),
            _ => {}
        }
    }
}
