//! The target.

use core::marker::PhantomData;
use core::ops::{Deref, DerefMut};

use crate::running::run;
use crate::{
    Ack, Description, Error, I2c, Outcome, Peripheral, RawTimingr, Registers, TargetConfig,
    TargetEvent,
};

/// The peripheral acknowledges every byte.
#[derive(Debug)]
pub struct AutoAck;

/// The firmware acknowledges the last byte of a transfer.
#[derive(Debug)]
pub struct ManualAck;

mod sealed {
    pub trait Sealed {}
    impl Sealed for super::AutoAck {}
    impl Sealed for super::ManualAck {}
}

/// [`AutoAck`] or [`ManualAck`].
pub trait AckMode: sealed::Sealed {
    /// Which of the two.
    const ACK: Ack;
}

impl AckMode for AutoAck {
    const ACK: Ack = Ack::Auto;
}

impl AckMode for ManualAck {
    const ACK: Ack = Ack::Manual;
}

/// A target. Its calls block until they have ended; for one that must not, see
/// [`Running`](crate::Running).
#[derive(Debug)]
pub struct I2cTarget<R, A = AutoAck> {
    peripheral: Peripheral<R>,
    ack: PhantomData<A>,
}

impl<R: Registers> I2cTarget<R> {
    /// Sets the peripheral up as a target. Its clock and pins are the firmware's. It is not called
    /// before it listens ([`enable_target_event`](Peripheral::enable_target_event)).
    pub fn new(registers: R, timing: RawTimingr, config: TargetConfig) -> Result<Self, Error> {
        let mut peripheral = Peripheral { registers };
        peripheral.order(Description::target_new(timing, config))?;
        Ok(Self::of(peripheral))
    }

    /// The firmware acknowledges the last byte of every transfer from now on.
    pub fn with_manual_ack_control(self) -> I2cTarget<R, ManualAck> {
        I2cTarget::of(self.peripheral)
    }
}

impl<R: Registers> I2cTarget<R, ManualAck> {
    /// Acknowledges the last byte that was read, which ends the transfer.
    pub fn ack_transfer(&mut self) -> Result<(), Error> {
        self.peripheral.order(Description::ack_transfer())
    }

    /// Does not acknowledge it, which ends the transfer too.
    pub fn nack_transfer(&mut self) -> Result<(), Error> {
        self.peripheral.order(Description::nack_transfer())
    }

    /// The peripheral acknowledges every byte from now on.
    pub fn with_automatic_ack_control(self) -> I2cTarget<R> {
        I2cTarget::of(self.peripheral)
    }
}

impl<R: Registers, A: AckMode> I2cTarget<R, A> {
    fn run(&mut self, description: Description, buffer: &mut [u8]) -> Result<Outcome, Error> {
        run(&mut self.peripheral.registers, description, &[], buffer)
    }

    /// Waits until the controller reads or writes, or for a stop.
    pub fn wait_for_event(&mut self) -> Result<TargetEvent, Error> {
        // The call ends by an event or an error, so there is one turn.
        loop {
            if let Outcome::Event(event) = self.run(Description::wait_for_event(A::ACK), &mut [])? {
                return Ok(event);
            }
        }
    }

    /// Takes bytes in after a write event, until the buffer is full or the controller stops. Says
    /// how many came.
    pub fn read(&mut self, buffer: &mut [u8]) -> Result<usize, Error> {
        Ok(self.run(Description::read(A::ACK), buffer)?.count())
    }

    /// Puts bytes out after a read event, and zeros after the last, until the controller has
    /// enough. Says how many were taken, at most all: one less than were put out, zeros among them,
    /// since the last is taken to be in TXDR still. The bytes are not changed.
    pub fn write(&mut self, bytes: &mut [u8]) -> Result<usize, Error> {
        Ok(self.run(Description::write(A::ACK), bytes)?.count())
    }

    /// Waits for a write event and takes bytes in, as [`read`](Self::read) does.
    pub fn wait_for_target_read(&mut self, buffer: &mut [u8]) -> Result<usize, Error> {
        let outcome = self.run(Description::wait_for_target_read(A::ACK), buffer)?;
        Ok(outcome.count())
    }

    /// Waits for a read event and puts bytes out, as [`write`](Self::write) does.
    pub fn wait_for_target_write(&mut self, bytes: &mut [u8]) -> Result<usize, Error> {
        let outcome = self.run(Description::wait_for_target_write(A::ACK), bytes)?;
        Ok(outcome.count())
    }

    /// Waits for a stop.
    pub fn wait_for_stop(&mut self) -> Result<(), Error> {
        self.run(Description::wait_for_stop(A::ACK), &mut [])?;
        Ok(())
    }

    /// The same peripheral as a controller.
    pub fn to_controller(self) -> I2c<R> {
        I2c::of(self.peripheral)
    }

    /// The registers again, as they are.
    pub fn free(self) -> R {
        self.peripheral.registers
    }

    pub(crate) fn of(peripheral: Peripheral<R>) -> Self {
        I2cTarget {
            peripheral,
            ack: PhantomData,
        }
    }
}

impl<R, A> Deref for I2cTarget<R, A> {
    type Target = Peripheral<R>;

    fn deref(&self) -> &Self::Target {
        &self.peripheral
    }
}

impl<R, A> DerefMut for I2cTarget<R, A> {
    fn deref_mut(&mut self) -> &mut Self::Target {
        &mut self.peripheral
    }
}
