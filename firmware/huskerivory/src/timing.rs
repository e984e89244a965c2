//! The bus timing.

use crate::{boundary, Refusal};

/// A TIMINGR word, apart from a plain number.
#[derive(Clone, Copy, Debug, PartialEq, Eq)]
pub struct RawTimingr(pub u32);

impl RawTimingr {
    /// The word for a kernel clock and a bus frequency in hertz, by document 01's speed bands.
    pub fn for_bus(clock: u32, frequency: u32) -> Result<Self, Refusal> {
        boundary::timing(clock, frequency)
    }

    /// Its fields. Bits 24 to 27 belong to none. Every word has fields: only
    /// [`Refusal::LIBRARY`] can come up.
    pub fn unpack(self) -> Result<I2cTiming, Refusal> {
        boundary::unpack(self)
    }
}

/// The fields of TIMINGR.
#[repr(C)]
#[derive(Clone, Copy, Debug, Default, PartialEq, Eq)]
pub struct I2cTiming {
    /// The prescaler, up to 15.
    pub presc: u8,
    /// The data setup time, up to 15.
    pub scldel: u8,
    /// The data hold time, up to 15.
    pub sdadel: u8,
    /// How long the clock is high.
    pub sclh: u8,
    /// How long it is low.
    pub scll: u8,
}

impl I2cTiming {
    /// The word of these fields.
    pub fn pack(self) -> Result<RawTimingr, Refusal> {
        boundary::pack(self)
    }
}
