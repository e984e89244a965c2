//! Huskerivory: a proved I2C driver for the STM32H5, for firmware.
//!
//! The driver itself is written in Rattle, proved equal to a definition of what every call does for
//! every order of status flags, and linked as a static library. It touches no register. This crate
//! makes its accesses: [`Registers`] reads and writes the nine registers of an I2C peripheral,
//! [`I2c`] (a controller) and [`I2cTarget`] have the calls of stm32h5xx-hal under their names, and
//! [`Running`] is a call that goes on by one register read at a time, for firmware that cannot
//! wait.
//!
//! ```
//! use huskerivory::{Address, I2c, RawTimingr, Registers};
//!
//! # fn send<R: Registers>(registers: R) -> Result<(), huskerivory::Error> {
//! let timing = RawTimingr::for_bus(250_000_000, 400_000)?;
//! let mut i2c = I2c::new(registers, timing, None)?;
//! i2c.write(Address::SevenBit(0x50), &mut [0x12, 0x34])?;
//!
//! // Two bytes out, a repeated start, and four in, all in one buffer.
//! let mut buffer = [0x00, 0x10, 0, 0, 0, 0];
//! i2c.write_read(Address::SevenBit(0x50), &mut buffer, 2)?;
//! # Ok(())
//! # }
//! ```
//!
//! The timing goes by document 01's speed bands, or by a board's own ([`Bands`]), where its cables
//! are long or its edges slow.
//!
//! What was read and written can be kept as a log ([`Logged`]) and laid out for paper ([`page()`]),
//! with every register and field by its name.
//!
//! A call that cannot be made is refused with a number ([`Refusal`]): then no register is touched
//! and no byte is changed. There is no `unsafe` outside the module that calls the library, no
//! allocation, and no panic.

#![no_std]
#![deny(unsafe_code)]
#![warn(missing_docs)]

mod bands;
mod boundary;
mod controller;
mod description;
mod error;
mod logged;
mod operation;
mod outcome;
mod page;
mod registers;
mod running;
mod saved_call;
mod target;
mod timing;

pub use bands::{Band, Bands, Shape};
pub use controller::I2c;
pub use description::{Ack, Address, AddressMode, Description, TargetConfig, TargetListenEvent};
pub use error::{Error, ErrorKind, NoAcknowledgeSource, Refusal};
pub use logged::Logged;
pub use operation::Operation;
pub use outcome::{Outcome, TargetEvent};
pub use page::{page, PAGE_ENTRY, PAGE_LINE};
pub use registers::{Peripheral, Registers};
pub use running::Running;
pub use saved_call::SavedCall;
pub use target::{AckMode, AutoAck, I2cTarget, ManualAck};
pub use timing::{I2cTiming, RawTimingr};
