//! The nine I2C registers, with the fields that the driver names, placed as in RM0492.

use crate::{FieldReader, FieldWriter, NoAnswer, Reg, Register, R, W, WRITE};
use core::cell::{Cell, RefCell, UnsafeCell};
use std::panic::resume_unwind;

/// An entry of the log: the register's offset, plus `WRITE` for a write, and the value.
pub type Access = [u32; 2];

/// Registers that answer reads from a list, and after it by a choice, and log every access.
#[derive(Default)]
pub struct RegisterBlock {
    answers: Vec<u32>,
    choose: RefCell<Option<Choose>>,
    used: Cell<usize>,
    log: UnsafeCell<Vec<Access>>,
}

/// Chooses an answer by the offset of the register read, or none.
type Choose = Box<dyn FnMut(u32) -> Option<u32>>;

impl RegisterBlock {
    /// Starts anew with these answers and an empty log. What was allocated before is used again.
    pub fn load(&mut self, answers: &[u32]) {
        self.answers.clear();
        self.answers.extend_from_slice(answers);
        *self.choose.get_mut() = None;
        self.used.set(0);
        let log = self.log.get_mut();
        log.clear();
        // Few writes stand between two reads, so that no access allocates.
        log.reserve(2 * answers.len() + 8);
    }

    /// Starts anew with the same answers.
    pub fn rewind(&mut self) {
        self.used.set(0);
        self.log.get_mut().clear();
    }

    /// Has the reads for which the list has no answer answered by choice.
    pub fn answer_by(&mut self, choose: impl FnMut(u32) -> Option<u32> + 'static) {
        self.choose = RefCell::new(Some(Box::new(choose)));
    }

    /// How many answers were taken.
    pub fn used(&self) -> usize {
        self.used.get()
    }

    pub fn log(&mut self) -> &[Access] {
        self.log.get_mut()
    }

    pub fn into_log(self) -> Vec<Access> {
        self.log.into_inner()
    }

    pub(crate) fn read(&self, offset: u32) -> u32 {
        let used = self.used.get();
        let answer = match self.answers.get(used) {
            Some(&answer) => answer,
            None => self.choice(offset),
        };
        self.used.set(used + 1);
        self.record([offset, answer]);
        answer
    }

    #[cold]
    fn choice(&self, offset: u32) -> u32 {
        let mut choose = self.choose.borrow_mut();
        let choice = choose.as_mut().and_then(|choose| choose(offset));
        choice.unwrap_or_else(|| resume_unwind(Box::new(NoAnswer)))
    }

    pub(crate) fn write(&self, offset: u32, value: u32) {
        self.record([offset + WRITE, value]);
    }

    fn record(&self, access: Access) {
        // SAFETY: the block is not `Sync`, and a reference to the log is given out only by `log`,
        // which borrows the whole block mutably.
        unsafe { (*self.log.get()).push(access) }
    }
}

/// Makes the registers from a table. A row has a field's name, its bits, the type of its value if
/// it is a number, and the names by which the driver writes or asks for a value.
macro_rules! registers {
    ($(
        $register:ident $marker:ident at $offset:literal from $reset:literal {
            $(
                $field:ident $top:literal : $low:literal
                $(as $number:ident)?
                $(write { $($written:ident = $put:literal),+ })?
                $(read { $($asked:ident = $got:literal),+ })?
                ;
            )+
        }
    )+) => {
        impl RegisterBlock {
            $(
                pub fn $register(&self) -> Reg<'_, $register::$marker> {
                    Reg::of(self)
                }
            )+
        }

        $(
            pub mod $register {
                use super::*;

                pub struct $marker;

                impl Register for $marker {
                    const OFFSET: u32 = $offset;
                    const RESET: u32 = $reset;
                }

                impl R<$marker> {
                    $(
                        pub fn $field(&self) -> FieldReader<$marker, $top, $low> {
                            FieldReader::of(self)
                        }
                    )+
                }

                impl W<$marker> {
                    $(
                        pub fn $field(&mut self) -> FieldWriter<'_, $marker, $top, $low> {
                            FieldWriter { w: self }
                        }
                    )+
                }

                $(
                    impl FieldReader<$marker, $top, $low> {
                        $(
                            pub fn bits(&self) -> $number {
                                self.get() as $number
                            }
                        )?
                        $($(
                            pub fn $asked(&self) -> bool {
                                self.get() == $got
                            }
                        )+)?
                    }

                    impl<'w> FieldWriter<'w, $marker, $top, $low> {
                        $(
                            pub fn set(self, value: $number) -> &'w mut W<$marker> {
                                self.put(value.into())
                            }
                        )?
                        $($(
                            pub fn $written(self) -> &'w mut W<$marker> {
                                self.put($put)
                            }
                        )+)?
                    }
                )+
            }
        )+
    };
}

registers! {
    cr1 CR1rs at 0x00 from 0 {
        gcen 19:19 write { disabled = 0, enabled = 1 };
        sbc 16:16 write { disabled = 0, enabled = 1 };
        anfoff 12:12 write { enabled = 0 }; // the bit switches the analog filter off
        pe 0:0 write { disabled = 0, enabled = 1 } read { is_enabled = 1 };
    }
    cr2 CR2rs at 0x04 from 0 {
        autoend 25:25;
        reload 24:24 write { completed = 0, not_completed = 1 };
        nbytes 23:16 as u8;
        nack 15:15 write { nack = 1 };
        start 13:13 write { start = 1 } read { is_no_start = 0 };
        head10r 12:12 write { complete = 0, partial = 1 };
        add10 11:11;
        rd_wrn 10:10;
        sadd 9:0 as u16;
    }
    oar1 OAR1rs at 0x08 from 0 {
        oa1en 15:15 write { disabled = 0, enabled = 1 };
        oa1mode 10:10 write { bit7 = 0, bit10 = 1 };
        oa1 9:0 as u16;
    }
    oar2 OAR2rs at 0x0C from 0 {
        oa2en 15:15 write { disabled = 0, enabled = 1 };
        oa2msk 10:8 as u8;
        oa2 7:1 as u8;
    }
    timingr TIMINGRrs at 0x10 from 0 {
        presc 31:28 as u8;
        scldel 23:20 as u8;
        sdadel 19:16 as u8;
        sclh 15:8 as u8;
        scll 7:0 as u8;
    }
    isr ISRrs at 0x18 from 1 {
        addcode 23:17 as u8;
        dir 16:16 read { is_read = 1 }; // the controller reads
        arlo 9:9 read { is_lost = 1 };
        berr 8:8 read { is_error = 1 };
        tcr 7:7 read { is_complete = 1 };
        tc 6:6 read { is_complete = 1 };
        stopf 5:5 read { is_stop = 1 };
        nackf 4:4 read { is_nack = 1 };
        addr 3:3 read { is_match = 1 };
        rxne 2:2 read { is_not_empty = 1 };
        txis 1:1 read { is_empty = 1 }; // TXDR is empty and a byte is asked for
        txe 0:0 read { is_not_empty = 0 }; // TXDR empty
    }
    icr ICRrs at 0x1C from 0 {
        arlocf 9:9 write { clear = 1 };
        berrcf 8:8 write { clear = 1 };
        stopcf 5:5 write { clear = 1 };
        nackcf 4:4 write { clear = 1 };
        addrcf 3:3 write { clear = 1 };
    }
    rxdr RXDRrs at 0x24 from 0 {
        rxdata 7:0 as u8;
    }
    txdr TXDRrs at 0x28 from 0 {
        txdata 7:0 as u8;
    }
}

#[cfg(test)]
mod tests {
    use super::*;
    use std::panic::{catch_unwind, AssertUnwindSafe};

    /// What the accesses of `driver` leave in the log.
    fn logged(answers: &[u32], driver: impl FnOnce(&RegisterBlock)) -> Vec<Access> {
        let mut block = RegisterBlock::default();
        block.load(answers);
        driver(&block);
        block.into_log()
    }

    #[test]
    fn a_plain_write_starts_from_0_and_for_isr_from_1() {
        let log = logged(&[], |block| {
            block.cr1().write(|w| w);
            block.cr2().write(|w| w.add10().bit(true));
            block.isr().write(|w| w);
            block.isr().write(|w| w.txe().set_bit());
            block.icr().write(|w| w.nackcf().clear());
        });
        assert_eq!(
            log,
            [
                [0x100, 0],
                [0x104, 0x800],
                [0x118, 1],
                [0x118, 1],
                [0x11C, 0x10]
            ]
        );
    }

    #[test]
    fn a_modify_alters_the_named_fields_alone() {
        let log = logged(&[0xFFFF_FFFF, 0, 0xFFFF_FFFF], |block| {
            block
                .cr1()
                .modify(|_, w| w.pe().enabled().anfoff().enabled());
            block.cr2().modify(|_, w| w.reload().not_completed());
            block
                .cr2()
                .modify(|_, w| w.reload().completed().nbytes().set(0));
        });
        assert_eq!(
            log,
            [
                [0x00, 0xFFFF_FFFF],
                [0x100, 0xFFFF_EFFF],
                [0x04, 0],
                [0x104, 0x0100_0000],
                [0x04, 0xFFFF_FFFF],
                [0x104, 0xFE00_FFFF],
            ]
        );
    }

    #[test]
    fn a_field_keeps_its_low_bits() {
        let log = logged(&[], |block| {
            block.cr2().write(|w| w.sadd().set(0xFFFF));
            block.oar2().write(|w| w.oa2().set(0xFF));
            block.oar2().write(|w| w.oa2msk().set(9));
            block.timingr().write(|w| w.presc().set(0xFA));
        });
        assert_eq!(
            log,
            [
                [0x104, 0x3FF],
                [0x10C, 0xFE],
                [0x10C, 0x100],
                [0x110, 0xA000_0000]
            ]
        );
    }

    #[test]
    fn every_register_logs_its_offset() {
        let log = logged(&[0, 1, 2, 3, 4, 5, 6, 7, 8], |block| {
            block.cr1().read();
            block.cr2().read();
            block.oar1().read();
            block.oar2().read();
            block.timingr().read();
            block.isr().read();
            block.icr().read();
            block.rxdr().read();
            block.txdr().read();
        });
        let offsets = [0x00, 0x04, 0x08, 0x0C, 0x10, 0x18, 0x1C, 0x24, 0x28];
        assert!(log.iter().map(|access| access[0]).eq(offsets));
        assert!(log.iter().map(|access| access[1]).eq(0..9));
    }

    #[test]
    fn the_flags_that_read_the_other_way_round() {
        let mut block = RegisterBlock::default();
        block.load(&[0, 3]);
        let isr = block.isr().read();
        assert!(isr.txe().is_not_empty() && !isr.txis().is_empty());
        let isr = block.isr().read();
        assert!(!isr.txe().is_not_empty() && isr.txis().is_empty());
    }

    #[test]
    fn reads_after_the_list_are_answered_by_choice() {
        let mut block = RegisterBlock::default();
        block.load(&[7]);
        block.answer_by(|offset| (offset == 0x18).then_some(9));
        block.isr().read();
        block.isr().read();
        let stopped = catch_unwind(AssertUnwindSafe(|| block.cr1().read()));
        assert!(stopped.is_err_and(|left| left.is::<NoAnswer>()));
        assert_eq!(block.used(), 2);
        assert_eq!(block.log(), [[0x18, 7], [0x18, 9]]);
    }

    #[test]
    fn a_read_without_an_answer_stops_and_leaves_no_entry() {
        let mut block = RegisterBlock::default();
        block.load(&[7]);
        block.rxdr().read();
        let stopped = catch_unwind(AssertUnwindSafe(|| block.cr1().modify(|_, w| w)));
        assert!(stopped.unwrap_err().is::<NoAnswer>());
        assert_eq!(block.used(), 1);
        assert_eq!(block.log(), [[0x24, 7]]);
    }
}
