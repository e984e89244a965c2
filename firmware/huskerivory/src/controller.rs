//! The controller.

use core::ops::{Deref, DerefMut};

use crate::running::run;
use crate::{
    Address, Description, Error, I2cTarget, Operation, Peripheral, RawTimingr, Refusal, Registers,
    TargetConfig,
};

/// A controller. Its calls block until they have ended; for one that must not, see
/// [`Running`](crate::Running).
#[derive(Debug)]
pub struct I2c<R> {
    peripheral: Peripheral<R>,
}

impl<R: Registers> I2c<R> {
    /// Sets the peripheral up; with a configuration it can be a target too. Its clock and pins are
    /// the firmware's. `registers` may be a `&mut`, to keep them where this is refused.
    pub fn new(
        registers: R,
        timing: RawTimingr,
        config: Option<TargetConfig>,
    ) -> Result<Self, Error> {
        let mut peripheral = Peripheral { registers };
        peripheral.order(Description::new(timing, config))?;
        Ok(I2c { peripheral })
    }

    /// Makes the operations in turn, without a stop between them. Their lengths make up the buffer,
    /// of up to 65,535 bytes, which has the bytes to put out and the places of those that come in; no
    /// others are changed.
    pub fn transaction(
        &mut self,
        address: Address,
        operations: &[Operation],
        buffer: &mut [u8],
    ) -> Result<(), Error> {
        let description = Description::transaction(address);
        run(
            &mut self.peripheral.registers,
            description,
            operations,
            buffer,
        )?;
        Ok(())
    }

    /// Fills the buffer, of up to 65,535 bytes.
    pub fn read(&mut self, address: Address, buffer: &mut [u8]) -> Result<(), Error> {
        let length = self.length(address, buffer.len())?;
        self.transaction(address, &[Operation::read(length)], buffer)
    }

    /// Puts up to 65,535 bytes out. They are not changed.
    pub fn write(&mut self, address: Address, bytes: &mut [u8]) -> Result<(), Error> {
        let length = self.length(address, bytes.len())?;
        self.transaction(address, &[Operation::write(length)], bytes)
    }

    /// Puts the first `written` bytes out and, after a repeated start, fills the rest.
    pub fn write_read(
        &mut self,
        address: Address,
        buffer: &mut [u8],
        written: usize,
    ) -> Result<(), Error> {
        let Some(rest) = buffer.len().checked_sub(written) else {
            // A list that asks for more than there is.
            return self.transaction(address, &[Operation::write(1)], &mut []);
        };
        let operations = [
            Operation::write(self.length(address, written)?),
            Operation::read(self.length(address, rest)?),
        ];
        self.transaction(address, &operations, buffer)
    }

    /// The length of a part of the buffer, as an operation holds it. Where it holds no more, the
    /// buffer is too long; an empty transaction makes no access, and is refused for an address that
    /// is wrong, which comes first.
    fn length(&mut self, address: Address, bytes: usize) -> Result<u16, Error> {
        match u16::try_from(bytes) {
            Ok(length) => Ok(length),
            Err(_) => {
                self.transaction(address, &[], &mut [])?;
                Err(Refusal::BUFFER.into())
            }
        }
    }

    /// The same peripheral as a target. It is called only if it was set up with a configuration and
    /// listens.
    pub fn to_target(self) -> I2cTarget<R> {
        I2cTarget::of(self.peripheral)
    }

    /// The registers again, as they are.
    pub fn free(self) -> R {
        self.peripheral.registers
    }

    pub(crate) fn of(peripheral: Peripheral<R>) -> Self {
        I2c { peripheral }
    }
}

impl<R> Deref for I2c<R> {
    type Target = Peripheral<R>;

    fn deref(&self) -> &Self::Target {
        &self.peripheral
    }
}

impl<R> DerefMut for I2c<R> {
    fn deref_mut(&mut self) -> &mut Self::Target {
        &mut self.peripheral
    }
}
