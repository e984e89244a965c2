//! An I2C peripheral, simulated as far as the driver and the other end of the bus can see it.
//!
//! It has the registers of RM0492, a shift register, and a counter of the clock pulses in a frame
//! of nine: eight bits and the acknowledge. It knows nothing of the other peripheral. What happens
//! on its own two lines is told to it: a START, a clock pulse with the level of SDA, a STOP.
//!
//! Each rule cites RM0492, chapter I2C, by the title of its section or by the field. The titles say
//! master and slave; a revision that says controller and target has the same sections. Out of the
//! model: ten-bit and secondary addresses, general call, SMBus, DMA, NOSTRETCH, and a STOP that
//! software asks for (CR2.STOP), none of which the exchanges of this package use.

use huskerivory::Registers;

use crate::registers::{cr1, cr2, isr, oar1, CR1, CR2, ICR, ISR, OAR1, OAR2, RXDR, TIMINGR, TXDR};

/// What the peripheral is in the transfer on its lines.
#[derive(Clone, Copy, Debug, PartialEq, Eq, Hash)]
enum Role {
    /// It takes no part.
    None,
    Controller,
    Target,
}

/// What the running frame of nine clock pulses is for.
#[derive(Clone, Copy, Debug, PartialEq, Eq, Hash)]
enum Frame {
    Address,
    Transmit,
    Receive,
    /// Nothing more of this transfer is for this peripheral: a controller has only its STOP or its
    /// next START to make, a target waits for one.
    Over,
}

/// What a controller's peripheral does next on its lines.
#[derive(Clone, Copy, Debug, PartialEq, Eq)]
pub enum BusStep {
    Start,
    Pulse,
    Stop,
}

/// An I2C peripheral.
#[derive(Clone, Debug, PartialEq, Eq, Hash)]
pub struct SimulatedI2c {
    cr1: u32,
    cr2: u32,
    oar1: u32,
    oar2: u32,
    timingr: u32,
    isr: u32,
    rxdr: u8,
    txdr: u8,
    role: Role,
    frame: Frame,
    /// Clock pulses of the running frame, 0 to 8.
    pulses: u8,
    shift: u8,
    /// The shift register holds a byte: one to send, or one received that RXDR has no room for.
    shift_full: bool,
    /// What is left of the NBYTES of the running block.
    remaining: u8,
    /// Bytes that went out whole, acknowledged or not. No register shows it; the page's claims do.
    bytes_out: u32,
}

impl Default for SimulatedI2c {
    fn default() -> Self {
        SimulatedI2c {
            cr1: 0,
            cr2: 0,
            oar1: 0,
            oar2: 0,
            timingr: 0,
            isr: isr::TXE,
            rxdr: 0,
            txdr: 0,
            role: Role::None,
            frame: Frame::Over,
            pulses: 0,
            shift: 0,
            shift_full: false,
            remaining: 0,
            bytes_out: 0,
        }
    }
}

/// What the other end of the bus sees of it.
impl SimulatedI2c {
    /// The next thing that it makes on the bus as a controller, if it is not waiting for its
    /// firmware.
    pub fn next_step(&self) -> Option<BusStep> {
        let start = self.cr2 & cr2::START != 0;
        match (self.role, self.frame) {
            // "Master communication initialization": the START is made when the bus is free.
            (Role::None, _) => (start && !self.has(isr::BUSY)).then_some(BusStep::Start),
            (Role::Controller, Frame::Over) if self.has(isr::TC) => None,
            (Role::Controller, Frame::Over) if start => Some(BusStep::Start),
            (Role::Controller, Frame::Over) => Some(BusStep::Stop),
            (Role::Controller, _) => (!self.holds_scl()).then_some(BusStep::Pulse),
            (Role::Target, _) => None,
        }
    }

    /// It holds SCL low until its firmware has done something.
    pub fn holds_scl(&self) -> bool {
        let waits = match self.frame {
            // "Data transfer", transmission: SCL is held after the ninth pulse while TXDR is empty.
            Frame::Transmit => self.pulses == 0 && !self.shift_full,
            // "Data transfer", reception: SCL is held between the eighth and the ninth pulse while
            // RXDR still has the byte before.
            Frame::Receive => self.shift_full,
            Frame::Address | Frame::Over => false,
        };
        // "Slave clock stretching": while ADDR is set. "Slave byte control mode" and I2C_ISR.TCR:
        // while TCR is set. I2C_ISR.TC: a controller holds SCL for its next START.
        self.role != Role::None && (waits || self.has(isr::ADDR | isr::TCR | isr::TC))
    }

    /// The level that it gives SDA for the next clock pulse; high is released.
    pub fn sda(&self) -> bool {
        match (self.frame, self.role) {
            (_, Role::None) | (Frame::Over, _) => true,
            (Frame::Address, Role::Target) => self.pulses < 8 || !self.is_called(),
            (Frame::Address | Frame::Transmit, _) => self.pulses == 8 || self.shift & 0x80 != 0,
            (Frame::Receive, _) => self.pulses < 8 || !self.acknowledges(),
        }
    }

    /// Bytes that it put on SDA whole.
    pub fn bytes_out(&self) -> u32 {
        self.bytes_out
    }

    /// It makes a transfer as a controller.
    pub fn is_controller(&self) -> bool {
        self.role == Role::Controller
    }
}

/// What happens on its lines.
impl SimulatedI2c {
    /// A START: its own if it has one to make.
    pub fn start(&mut self) {
        self.flag_if_misplaced();
        let own = self.next_step() == Some(BusStep::Start);
        self.isr |= isr::BUSY;
        self.frame = Frame::Address;
        self.pulses = 0;
        self.shift_full = false;
        if own {
            self.role = Role::Controller;
            self.remaining = cr2::nbytes(self.cr2);
            let read = self.cr2 & cr2::RD_WRN != 0;
            self.shift = (self.cr2 & cr2::SADD_7BIT) as u8 | u8::from(read);
        } else {
            // "Error conditions", bus error: after a misplaced START a target looks for its address
            // as after a right one.
            self.role = Role::Target;
            self.shift = 0;
        }
    }

    /// A STOP.
    pub fn stop(&mut self) {
        self.flag_if_misplaced();
        // I2C_ISR.STOPF: of a STOP that it made, or of a transfer in which it was called. The
        // manual makes no exception for a misplaced one.
        if self.role == Role::Controller || self.is_addressed() {
            self.isr |= isr::STOPF;
        }
        // I2C_CR2.NACK: cleared by a STOP. I2C_ISR.BUSY: too.
        self.cr2 &= !cr2::NACK;
        self.isr &= !isr::BUSY;
        self.leave();
    }

    /// A clock pulse, with the level of SDA while SCL was high.
    pub fn pulse(&mut self, sda: bool) {
        if self.role == Role::None {
            return;
        }
        if self.sends() && self.sda() && !sda {
            return self.lose_arbitration();
        }
        if self.pulses == 8 {
            self.ninth_pulse(!sda);
            self.pulses = 0;
            return;
        }
        self.pulses += 1;
        if self.frame != Frame::Over {
            self.shift = self.shift << 1 | u8::from(sda);
        }
        if self.frame == Frame::Receive && self.pulses == 8 {
            self.shift_full = true;
            self.move_to_rxdr();
        }
    }

    /// "Error conditions", bus error: the flag is set, and the manual names no other effect on a
    /// controller, so its transfer goes on.
    pub fn bus_error(&mut self) {
        self.isr |= isr::BERR;
    }

    /// "Error conditions", arbitration lost: SDA was low where it sent a one. It releases the
    /// lines; a controller's START is cleared, and it takes no further part.
    pub fn lose_arbitration(&mut self) {
        self.isr |= isr::ARLO;
        self.cr2 &= !cr2::START;
        self.leave();
    }

    /// "Error conditions", bus error: a START or STOP that is not after a multiple of nine pulses,
    /// if it is in the transfer, a target from its address on.
    fn flag_if_misplaced(&mut self) {
        if self.pulses != 0 && (self.role == Role::Controller || self.is_addressed()) {
            self.isr |= isr::BERR;
        }
    }

    /// "Error conditions", arbitration lost: watched in the address, in data that it sends, and in
    /// the acknowledge that it gives; a target's answer to its address is not.
    fn sends(&self) -> bool {
        match self.frame {
            Frame::Address => self.role == Role::Controller && self.pulses < 8,
            Frame::Transmit => self.pulses < 8,
            Frame::Receive => self.pulses == 8,
            Frame::Over => false,
        }
    }

    fn ninth_pulse(&mut self, acknowledged: bool) {
        match (self.frame, self.role) {
            (Frame::Address, Role::Target) => self.answer_address(),
            (Frame::Address, _) => {
                // I2C_CR2.START: cleared when the address has been sent.
                self.cr2 &= !cr2::START;
                if acknowledged {
                    self.begin_data();
                } else {
                    self.not_acknowledged();
                }
            }
            (Frame::Transmit, role) => {
                self.bytes_out += 1;
                self.shift_full = false;
                match (acknowledged, role) {
                    (false, _) => self.not_acknowledged(),
                    (true, Role::Controller) => self.count_byte(),
                    (true, _) => self.move_from_txdr(),
                }
            }
            (Frame::Receive, Role::Controller) => self.count_byte(),
            (Frame::Receive, _) if !self.acknowledges() => {
                // I2C_CR2.NACK: cleared when it has been sent.
                self.cr2 &= !cr2::NACK;
                self.frame = Frame::Over;
            }
            (Frame::Receive | Frame::Over, _) => {}
        }
    }

    /// "Master transmitter", "Slave transmitter", I2C_ISR.NACKF: a controller makes a STOP by
    /// itself; a target releases the lines, and no TXIS comes.
    fn not_acknowledged(&mut self) {
        self.isr |= isr::NACKF;
        self.frame = Frame::Over;
    }

    fn leave(&mut self) {
        self.role = Role::None;
        self.frame = Frame::Over;
        self.pulses = 0;
        self.shift = 0;
        self.shift_full = false;
    }
}

/// The controller.
impl SimulatedI2c {
    /// The bytes of a block, after the address or after RELOAD.
    fn begin_data(&mut self) {
        let read = self.cr2 & cr2::RD_WRN != 0;
        self.frame = if read {
            Frame::Receive
        } else {
            Frame::Transmit
        };
        if self.remaining == 0 {
            self.end_block();
        } else if !read {
            // "Master transmitter": TXIS after the address and after each byte that was
            // acknowledged, NBYTES times in all.
            self.isr |= isr::TXIS;
        }
    }

    fn count_byte(&mut self) {
        self.remaining -= 1;
        if self.remaining == 0 {
            self.end_block();
        } else if self.frame == Frame::Transmit {
            self.isr |= isr::TXIS;
        }
    }

    /// I2C_CR2.RELOAD, AUTOEND: after NBYTES bytes TCR, a STOP, or TC.
    fn end_block(&mut self) {
        if self.cr2 & cr2::RELOAD != 0 {
            self.isr |= isr::TCR;
        } else {
            self.frame = Frame::Over;
            if self.cr2 & cr2::AUTOEND == 0 {
                self.isr |= isr::TC;
            }
        }
    }
}

/// The target.
impl SimulatedI2c {
    /// "Slave initialization", I2C_OAR1: the byte in the shift register calls its own address.
    fn is_called(&self) -> bool {
        self.oar1 & oar1::OA1EN != 0 && u32::from(self.shift & 0xFE) == self.oar1 & oar1::OA1_7BIT
    }

    /// I2C_ISR.ADDR, ADDCODE, DIR; I2C_CR2.NACK: cleared when the address matches.
    fn answer_address(&mut self) {
        if !self.is_called() {
            return self.leave();
        }
        self.isr = self.isr & !isr::ADDCODE_DIR | isr::ADDR | isr::addcode_dir(self.shift);
        self.cr2 &= !cr2::NACK;
        self.frame = if self.shift & 1 != 0 {
            Frame::Transmit
        } else {
            Frame::Receive
        };
    }

    fn is_addressed(&self) -> bool {
        self.role == Role::Target && self.frame != Frame::Address
    }

    fn byte_control(&self) -> bool {
        self.role == Role::Target && self.cr1 & cr1::SBC != 0
    }
}

/// The data registers.
impl SimulatedI2c {
    /// "Data transfer", reception: after the eighth pulse the byte goes to RXDR, once it is empty.
    fn move_to_rxdr(&mut self) {
        if !self.shift_full || self.has(isr::RXNE) {
            return;
        }
        self.rxdr = self.shift;
        self.shift_full = false;
        self.isr |= isr::RXNE;
        // "Slave byte control mode": TCR at the end of a block with RELOAD, before the acknowledge.
        if self.byte_control() && self.cr2 & cr2::RELOAD != 0 {
            self.remaining = self.remaining.saturating_sub(1);
            if self.remaining == 0 {
                self.isr |= isr::TCR;
            }
        }
    }

    /// "Data transfer", transmission: a byte in TXDR goes to the shift register when that is free.
    /// "Slave transmitter": TXIS whenever TXDR has become empty, so a target is asked for the next
    /// byte while one goes out.
    fn move_from_txdr(&mut self) {
        if !self.has(isr::TXE) {
            self.shift = self.txdr;
            self.shift_full = true;
            self.isr |= isr::TXE;
        }
        if self.role == Role::Target {
            self.isr |= isr::TXIS;
        }
    }

    /// "Master receiver": a controller acknowledges all but the last byte. I2C_CR2.NACK: a target
    /// acknowledges unless it is set.
    fn acknowledges(&self) -> bool {
        match self.role {
            Role::Controller => self.remaining > 1 || self.cr2 & cr2::RELOAD != 0,
            Role::Target | Role::None => self.cr2 & cr2::NACK == 0,
        }
    }

    fn has(&self, flags: u32) -> bool {
        self.isr & flags != 0
    }

    fn write_cr1(&mut self, value: u32) {
        self.cr1 = value;
        if value & cr1::PE == 0 {
            // "Software reset": PE 0 releases the lines and resets the status flags and START, STOP
            // and NACK of CR2.
            self.leave();
            self.isr = isr::TXE;
            self.cr2 &= !(cr2::START | cr2::STOP | cr2::NACK);
        }
    }

    fn write_cr2(&mut self, value: u32) {
        // I2C_CR2.START, STOP, NACK: writing 0 has no effect.
        self.cr2 = value | self.cr2 & (cr2::START | cr2::STOP | cr2::NACK);
        if value & cr2::START != 0 {
            // I2C_ISR.TC: cleared when START is set.
            self.isr &= !isr::TC;
        }
        let nbytes = cr2::nbytes(value);
        let reload = self.has(isr::TCR) && nbytes != 0;
        if reload || self.byte_control() {
            self.remaining = nbytes;
        }
        // I2C_ISR.TCR: cleared when NBYTES is written with another value than 0.
        if reload {
            self.isr &= !isr::TCR;
            if self.role == Role::Controller {
                self.begin_data();
            }
        }
    }

    fn write_icr(&mut self, value: u32) {
        let address = value & self.isr & isr::ADDR != 0;
        self.isr &= !(value & isr::CLEARED_BY_ICR);
        // "Slave transmitter": once ADDR is cleared the first byte is asked for.
        if address && self.frame == Frame::Transmit {
            self.move_from_txdr();
        }
    }

    fn write_txdr(&mut self, value: u8) {
        self.txdr = value;
        self.isr &= !(isr::TXE | isr::TXIS);
        if self.frame == Frame::Transmit && self.pulses == 0 && !self.shift_full {
            self.move_from_txdr();
        }
    }

    fn read_rxdr(&mut self) -> u8 {
        let byte = self.rxdr;
        // I2C_ISR.RXNE: cleared when RXDR is read.
        self.isr &= !isr::RXNE;
        self.move_to_rxdr();
        byte
    }
}

impl Registers for SimulatedI2c {
    fn read(&mut self, offset: u32) -> u32 {
        match offset {
            CR1 => self.cr1,
            CR2 => self.cr2,
            OAR1 => self.oar1,
            OAR2 => self.oar2,
            TIMINGR => self.timingr,
            ISR => self.isr,
            RXDR => u32::from(self.read_rxdr()),
            TXDR => u32::from(self.txdr),
            _ => 0,
        }
    }

    fn write(&mut self, offset: u32, value: u32) {
        match offset {
            CR1 => self.write_cr1(value),
            CR2 => self.write_cr2(value),
            OAR1 => self.oar1 = value,
            OAR2 => self.oar2 = value,
            TIMINGR => self.timingr = value,
            // I2C_ISR.TXE: written as 1 it flushes TXDR.
            ISR => self.isr |= value & isr::TXE,
            ICR => self.write_icr(value),
            TXDR => self.write_txdr(value as u8),
            _ => {}
        }
    }
}
