//! The oracle: the I2C driver of stm32h5xx-hal, its files unchanged, over stand-in registers.
//!
//! [`run`] performs one of document 01's calls over a list of register answers, [`Asked`] says
//! which calls document 01 refuses and which of them the driver's types can express; [`cut()`] is
//! the list that the driver is given of a transaction; [`calc_timing`], [`pack`] and [`unpack`] are
//! the driver's timing. This file is the rest of the HAL, as far as the driver leans on it.

mod calls;
mod cut;
mod panics;
mod refusals;
mod timing;

pub use calls::{explore, run, run_over, Configuration, Description, Outcome, Run, WAYS};
pub use cut::cut;
pub use panics::{Panic, PanicKind};
pub use refusals::Asked;
pub use stm32h5::i2c1::{Access, RegisterBlock};
pub use timing::{calc_timing, pack, unpack, Fields};

include!(concat!(env!("OUT_DIR"), "/modules.rs"));

use stm32h5 as stm32;

trait Sealed {}

mod time {
    #[derive(Clone, Copy)]
    pub struct Hertz(pub u32);

    impl Hertz {
        pub fn to_raw(self) -> u32 {
            self.0
        }
    }
}

mod rcc {
    use crate::time::Hertz;

    pub struct CoreClocks {
        pub i2c_ker_ck: Hertz,
    }

    /// Clock enabling is not taken: it touches none of the nine registers.
    pub trait ResetEnable: Sized {
        fn enable(self) -> Self {
            self
        }
        fn disable(self) -> Self {
            self
        }
        fn reset(self) -> Self {
            self
        }
    }

    pub struct I2c1;

    impl ResetEnable for I2c1 {}
}
