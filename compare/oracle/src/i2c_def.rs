//! Stand-in for the driver's `i2c_def`: the one peripheral, and, since a child module reaches the
//! private items of `i2c.rs`, the way from document 01's calls to the driver's functions.

use super::*;
use crate::rcc::I2c1;
use crate::{Configuration, Description, Fields, Outcome, WAYS};
use embedded_hal::i2c::{self, Operation};
use i2c1::RegisterBlock;

/// The peripheral: a register block on loan.
struct I2C1<'a>(&'a RegisterBlock);

impl Deref for I2C1<'_> {
    type Target = RegisterBlock;

    fn deref(&self) -> &RegisterBlock {
        self.0
    }
}

impl crate::Sealed for I2C1<'_> {}

impl Instance for I2C1<'_> {
    type Rec = I2c1;

    fn ptr() -> *const RegisterBlock {
        unreachable!("a lent block has no fixed place, and the driver asks for none")
    }

    fn clock(clocks: &CoreClocks) -> Hertz {
        clocks.i2c_ker_ck
    }

    fn rec() -> I2c1 {
        I2c1
    }
}

impl Description<'_> {
    /// Performs the call on the driver. The numbers are document 01's.
    pub(crate) fn perform(&self, registers: &RegisterBlock, buffer: &mut [u8]) -> (Outcome, u32) {
        let i2c = I2C1(registers);
        match self.call {
            1 | 2 => create(i2c, self),
            3 => configure_target_addresses(&i2c, configuration(self)),
            4 => Inner::new(i2c).enable_target_event(listen_event(self.listen)),
            5 => Inner::new(i2c).disable_target_event(listen_event(self.listen)),
            6 => Inner::new(i2c).reset(),
            7 => return done(transact(i2c, self, buffer).map(|()| 0)),
            8..=13 => return listen(target::<AutoAck>(i2c), self.call, buffer),
            14 => target::<ManualAck>(i2c).ack_transfer(),
            15 => target::<ManualAck>(i2c).nack_transfer(),
            24..=29 => return listen(target::<ManualAck>(i2c), self.call - 16, buffer),
            call => panic!("there is no call {call}"),
        }
        (Outcome::Done, 0)
    }
}

/// Calls 1 and 2. The clock is not looked at, since the timing comes as a word.
fn create(i2c: I2C1, description: &Description) {
    let timing = RawTimingr(description.timingr);
    let clocks = CoreClocks {
        i2c_ker_ck: Hertz(0),
    };
    if description.call == 2 {
        i2c.i2c_target_only_unchecked(timing, configuration(description), I2c1, &clocks);
    } else if description.configuration.is_some() {
        i2c.i2c_controller_target_unchecked(timing, configuration(description), I2c1, &clocks);
    } else {
        i2c.i2c_unchecked(timing, I2c1, &clocks);
    }
}

fn configuration(description: &Description) -> TargetConfig {
    let wanted = description
        .configuration
        .expect("calls 2 and 3 have a configuration");
    let all = wanted.way >= WAYS / 2;
    let other = !wanted.own_address;
    let mut config = TargetConfig::new(if all { other } else { wanted.own_address });
    let mut setters = SETTERS.to_vec();
    let mut order = wanted.way;
    while !setters.is_empty() {
        let left = setters.len() as u32;
        let setter = setters.remove((order % left) as usize);
        order /= left;
        config = setter(config, &wanted, all);
    }
    config
}

/// Sets one thing; of what a configuration has from the first on, only where all is to be set.
type Setter = fn(TargetConfig, &Configuration, bool) -> TargetConfig;

const SETTERS: [Setter; 4] = [
    |config, wanted, all| {
        if all {
            config.own_address(wanted.own_address)
        } else {
            config
        }
    },
    |config, wanted, all| match (wanted.ten_bit, all) {
        (true, _) => config.own_address_mode(AddressMode::AddressMode10bit),
        (false, true) => config.own_address_mode(AddressMode::AddressMode7bit),
        (false, false) => config,
    },
    |config, wanted, _| match wanted.secondary_address {
        Some(address) => config.secondary_address(address),
        None => config,
    },
    |config, wanted, _| match wanted.mask {
        Some(mask) => config.secondary_address_mask_bits(mask),
        None => config,
    },
];

fn listen_event(kind: u32) -> TargetListenEvent {
    match kind {
        0 => TargetListenEvent::GeneralCall,
        1 => TargetListenEvent::PrimaryAddress,
        2 => TargetListenEvent::SecondaryAddress,
        _ => panic!("there is no listen kind {kind}"),
    }
}

/// Call 7.
fn transact(i2c: I2C1, description: &Description, mut buffer: &mut [u8]) -> Result<(), Error> {
    let mut operations = Vec::with_capacity(description.operations.len());
    for word in description.operations.iter() {
        let (bytes, rest) = buffer.split_at_mut((word & 0xFFFF) as usize);
        buffer = rest;
        operations.push(if word & 0x1_0000 == 0 {
            Operation::Write(bytes)
        } else {
            Operation::Read(bytes)
        });
    }
    assert!(buffer.is_empty(), "the lengths do not sum to the buffer");

    let mut controller: I2c<I2C1> = I2c {
        inner: Inner::new(i2c),
        _role: PhantomData,
    };
    if description.ten_bit {
        i2c::I2c::transaction(&mut controller, description.address, &mut operations)
    } else {
        let address = u8::try_from(description.address).expect("a 7-bit address is a byte");
        i2c::I2c::transaction(&mut controller, address, &mut operations)
    }
}

fn target<A>(i2c: I2C1) -> I2cTarget<I2C1, A> {
    I2cTarget {
        inner: Inner::new(i2c),
        _role: PhantomData,
        _ack: PhantomData,
    }
}

/// Calls 8 to 13 in either mode.
fn listen<'a, A>(mut target: I2cTarget<I2C1<'a>, A>, call: u32, buffer: &mut [u8]) -> (Outcome, u32)
where
    I2cTarget<I2C1<'a>, A>: TargetAckMode,
{
    done(match call {
        8 => match target.wait_for_event() {
            Ok(TargetEvent::Read { address }) => return (Outcome::EventRead, address.into()),
            Ok(TargetEvent::Write { address }) => return (Outcome::EventWrite, address.into()),
            Ok(TargetEvent::Stop) => return (Outcome::EventStop, 0),
            Err(error) => Err(error),
        },
        9 => target.read(buffer),
        10 => target.write(buffer),
        11 => target.wait_for_target_read(buffer),
        12 => target.wait_for_target_write(buffer),
        _ => target.wait_for_stop().map(|()| 0),
    })
}

/// The outcome of a call that gives a count or an error.
fn done(result: Result<usize, Error>) -> (Outcome, u32) {
    match result {
        Ok(count) => (Outcome::Done, count as u32),
        Err(error) => (error.into(), 0),
    }
}

impl From<Error> for Outcome {
    fn from(error: Error) -> Self {
        match error {
            Error::Bus => Outcome::Bus,
            Error::Arbitration => Outcome::Arbitration,
            Error::NotAcknowledge => Outcome::Nack,
            Error::TargetError(TargetError::TransferStopped) => Outcome::Stopped,
            Error::TargetError(TargetError::ControllerExpectedWrite) => Outcome::ExpectedWrite,
            Error::TargetError(TargetError::ControllerExpectedRead) => Outcome::ExpectedRead,
        }
    }
}

impl From<I2cTiming> for Fields {
    fn from(timing: I2cTiming) -> Self {
        Fields {
            presc: timing.presc,
            scldel: timing.scldel,
            sdadel: timing.sdadel,
            sclh: timing.sclh,
            scll: timing.scll,
        }
    }
}
