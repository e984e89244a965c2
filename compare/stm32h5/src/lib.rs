//! Stand-in for the register crate stm32h5, whose real block lies outside the files at hand.
//!
//! Names and call shapes are those that svd2rust generates; the meaning is document 01's: a read
//! takes the next answer, a plain write starts from the register's reset value, a modify reads,
//! alters the named fields and writes, and a field keeps its low bits.

pub mod i2c1;

use core::marker::PhantomData;
use i2c1::RegisterBlock;

/// Added to the offset in the log's code of a write.
pub const WRITE: u32 = 0x100;

/// What sets one register apart from the others.
pub trait Register {
    const OFFSET: u32;
    /// What a plain write starts from.
    const RESET: u32;
}

/// A register of a block.
pub struct Reg<'a, REG> {
    block: &'a RegisterBlock,
    register: PhantomData<REG>,
}

impl<'a, REG: Register> Reg<'a, REG> {
    fn of(block: &'a RegisterBlock) -> Self {
        Reg {
            block,
            register: PhantomData,
        }
    }

    pub fn read(&self) -> R<REG> {
        R {
            bits: self.block.read(REG::OFFSET),
            register: PhantomData,
        }
    }

    pub fn write(&self, set: impl FnOnce(&mut W<REG>) -> &mut W<REG>) {
        self.write_from(REG::RESET, set);
    }

    pub fn modify<F>(&self, set: F)
    where
        F: for<'w> FnOnce(&R<REG>, &'w mut W<REG>) -> &'w mut W<REG>,
    {
        let seen = self.read();
        self.write_from(seen.bits, |w| set(&seen, w));
    }

    fn write_from(&self, bits: u32, set: impl FnOnce(&mut W<REG>) -> &mut W<REG>) {
        let mut w = W {
            bits,
            register: PhantomData,
        };
        set(&mut w);
        self.block.write(REG::OFFSET, w.bits);
    }
}

/// The word that a read gave.
pub struct R<REG> {
    bits: u32,
    register: PhantomData<REG>,
}

/// The word that a write is about to put.
pub struct W<REG> {
    bits: u32,
    register: PhantomData<REG>,
}

/// Bits `TOP` to `LOW` of a word that was read.
pub struct FieldReader<REG, const TOP: u32, const LOW: u32> {
    bits: u32,
    register: PhantomData<REG>,
}

impl<REG, const TOP: u32, const LOW: u32> FieldReader<REG, TOP, LOW> {
    fn of(r: &R<REG>) -> Self {
        FieldReader {
            bits: r.bits,
            register: PhantomData,
        }
    }

    fn get(&self) -> u32 {
        self.bits >> LOW & low_bits(TOP - LOW + 1)
    }
}

impl<REG, const BIT: u32> FieldReader<REG, BIT, BIT> {
    pub fn bit_is_set(&self) -> bool {
        self.get() == 1
    }
}

/// Bits `TOP` to `LOW` of a word about to be written.
pub struct FieldWriter<'w, REG, const TOP: u32, const LOW: u32> {
    w: &'w mut W<REG>,
}

impl<'w, REG, const TOP: u32, const LOW: u32> FieldWriter<'w, REG, TOP, LOW> {
    fn put(self, value: u32) -> &'w mut W<REG> {
        let mask = low_bits(TOP - LOW + 1) << LOW;
        self.w.bits = self.w.bits & !mask | value << LOW & mask;
        self.w
    }
}

impl<'w, REG, const BIT: u32> FieldWriter<'w, REG, BIT, BIT> {
    pub fn bit(self, value: bool) -> &'w mut W<REG> {
        self.put(value.into())
    }

    pub fn set_bit(self) -> &'w mut W<REG> {
        self.put(1)
    }
}

/// The `width` lowest bits. No field of the nine registers is empty or a whole word.
const fn low_bits(width: u32) -> u32 {
    (1 << width) - 1
}

/// Thrown, without a message, by a read that finds no answer: the only way out of the driver's
/// polling loops.
pub struct NoAnswer;
