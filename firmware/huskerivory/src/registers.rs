//! The registers of an I2C peripheral, and what controller and target have in common.

use crate::running::run;
use crate::{Description, Error, TargetConfig, TargetListenEvent};

/// The registers of one I2C peripheral, by their offsets in RM0492: CR1 0x00, CR2 0x04, OAR1 0x08,
/// OAR2 0x0C, TIMINGR 0x10, ISR 0x18, ICR 0x1C, RXDR 0x24, TXDR 0x28. Every access counts and none
/// may be made twice or be left out: a read of RXDR takes a byte.
///
/// ```
/// use huskerivory::Registers;
///
/// /// The peripheral at a base address, which nothing else may use.
/// struct Mapped(*mut u32);
///
/// impl Registers for Mapped {
///     fn read(&mut self, offset: u32) -> u32 {
///         // SAFETY: the offset is that of a register behind the base address.
///         unsafe { self.0.byte_add(offset as usize).read_volatile() }
///     }
///
///     fn write(&mut self, offset: u32, value: u32) {
///         // SAFETY: as above.
///         unsafe { self.0.byte_add(offset as usize).write_volatile(value) }
///     }
/// }
/// ```
pub trait Registers {
    /// The word that the register at this offset holds.
    fn read(&mut self, offset: u32) -> u32;

    /// Writes a word to the register at this offset.
    fn write(&mut self, offset: u32, value: u32);
}

impl<R: Registers + ?Sized> Registers for &mut R {
    fn read(&mut self, offset: u32) -> u32 {
        (**self).read(offset)
    }

    fn write(&mut self, offset: u32, value: u32) {
        (**self).write(offset, value)
    }
}

/// A peripheral that has been set up, as controller or target.
#[derive(Debug)]
pub struct Peripheral<R> {
    pub(crate) registers: R,
}

impl<R: Registers> Peripheral<R> {
    /// A call without operations or bytes, made to its end.
    pub(crate) fn order(&mut self, description: Description) -> Result<(), Error> {
        run(&mut self.registers, description, &[], &mut [])?;
        Ok(())
    }

    /// The registers, for a call that is [polled](crate::Running::poll).
    pub fn registers(&mut self) -> &mut R {
        &mut self.registers
    }

    /// Gives a target other addresses. What it listened to is disabled.
    pub fn configure_target_addresses(&mut self, config: TargetConfig) -> Result<(), Error> {
        self.order(Description::configure_target_addresses(config))
    }

    /// Listens to calls of this kind of address from now on.
    pub fn enable_target_event(&mut self, event: TargetListenEvent) -> Result<(), Error> {
        self.order(Description::enable_target_event(event))
    }

    /// Listens to calls of this kind of address no more.
    pub fn disable_target_event(&mut self, event: TargetListenEvent) -> Result<(), Error> {
        self.order(Description::disable_target_event(event))
    }

    /// Switches the peripheral off and on again. Blocks until it is off.
    pub fn reset(&mut self) -> Result<(), Error> {
        self.order(Description::reset())
    }
}
