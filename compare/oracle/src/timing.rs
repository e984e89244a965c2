//! The driver's timing: the rule, packing and unpacking.

use crate::i2c::{I2cTiming, IntoI2cTiming, RawTimingr};
use crate::panics::{catch, Left, Panic};
use crate::time::Hertz;

/// The five fields of TIMINGR, from the top bit down, laid out as C does.
#[repr(C)]
#[derive(Clone, Copy, Debug, PartialEq, Eq)]
pub struct Fields {
    pub presc: u8,
    pub scldel: u8,
    pub sdadel: u8,
    pub sclh: u8,
    pub scll: u8,
}

impl From<Fields> for I2cTiming {
    fn from(fields: Fields) -> Self {
        I2cTiming::new(
            fields.presc,
            fields.scldel,
            fields.sdadel,
            fields.sclh,
            fields.scll,
        )
    }
}

/// The fields for a kernel clock and a bus frequency in hertz, or the driver's panic.
pub fn calc_timing(clock: u32, frequency: u32) -> Result<Fields, Panic> {
    catch(|| Hertz(frequency).into_i2c_timing(clock).into()).map_err(|left| match left {
        Left::Panicked(panic) => panic,
        Left::NoAnswer => unreachable!("timing reads no register"),
    })
}

pub fn pack(fields: Fields) -> u32 {
    RawTimingr::from(I2cTiming::from(fields)).0
}

pub fn unpack(timingr: u32) -> Fields {
    I2cTiming::from(RawTimingr(timingr)).into()
}
