//! Registers that answer from a list and keep every access.
#![allow(dead_code)]

use huskerivory::{
    Address, Description, Error, I2c, I2cTarget, Operation, Outcome, RawTimingr, Refusal,
    Registers, Running, SavedCall, TargetConfig, TargetEvent,
};
use std::collections::VecDeque;
use std::task::Poll;

#[derive(Debug, Default)]
pub struct Scripted {
    answers: VecDeque<u32>,
    accesses: Vec<String>,
}

impl Scripted {
    pub fn new(answers: &[u32]) -> Self {
        Scripted {
            answers: answers.iter().copied().collect(),
            accesses: Vec::new(),
        }
    }

    pub fn answer(&mut self, answers: &[u32]) {
        self.answers.extend(answers);
    }

    pub fn answers_left(&self) -> usize {
        self.answers.len()
    }

    /// The accesses so far, as document 01's bench prints them.
    pub fn accesses(&self) -> &[String] {
        &self.accesses
    }

    /// What was accessed since this was last asked, with no answer left over.
    pub fn take(&mut self) -> Vec<String> {
        assert_eq!(self.answers.len(), 0, "answers are left over");
        std::mem::take(&mut self.accesses)
    }
}

impl Registers for Scripted {
    fn read(&mut self, offset: u32) -> u32 {
        let value = self.answers.pop_front().expect("no answer is left");
        self.accesses.push(format!("r {offset:02X} {value:08X}"));
        value
    }

    fn write(&mut self, offset: u32, value: u32) {
        self.accesses.push(format!("w {offset:02X} {value:08X}"));
    }
}

pub const TIMING: RawTimingr = RawTimingr(0x60FB_1C39);
pub const CONFIG: TargetConfig = TargetConfig::new(0x42)
    .secondary_address(0x21)
    .secondary_address_mask_bits(2);
pub const BOARD: Address = Address::SevenBit(0x50);

/// A controller that has been set up, and answers for what it does next.
pub fn controller(answers: &[u32]) -> I2c<Scripted> {
    let mut i2c = I2c::new(Scripted::new(&[0]), TIMING, None).expect("it is set up");
    i2c.registers().take();
    i2c.registers().answer(answers);
    i2c
}

pub fn target(answers: &[u32]) -> I2cTarget<Scripted> {
    let mut i2c = I2cTarget::new(Scripted::new(&[0, 0]), TIMING, CONFIG).expect("it is set up");
    i2c.registers().take();
    i2c.registers().answer(answers);
    i2c
}

/// A call made to its end, begun and then taken up from its bytes at every poll; `each` is told what
/// every poll saved.
pub fn taken_up_anew(
    registers: &mut Scripted,
    description: Description,
    operations: &[Operation],
    buffer: &mut [u8],
    mut each: impl FnMut(SavedCall),
) -> Result<Outcome, Error> {
    let mut saved = Running::begin(description, operations, buffer)?.saved();
    loop {
        let bytes = SavedCall::from_bytes(saved.to_bytes());
        let mut running = Running::resume(description, operations, buffer, bytes)?;
        let poll = running.poll(registers);
        saved = running.saved();
        each(saved);
        if let Poll::Ready(ended) = poll {
            return ended;
        }
    }
}

pub fn refused<T>(number: u32) -> Result<T, Error> {
    Err(Error::Refused(Refusal(number)))
}

/// Document 01's word for how a call ended, and the value.
pub fn words(ended: Result<Outcome, Error>) -> (&'static str, u32) {
    match ended {
        Ok(Outcome::Done(count)) => ("done", count),
        Ok(Outcome::Event(TargetEvent::Read { address })) => ("event-read", address.into()),
        Ok(Outcome::Event(TargetEvent::Write { address })) => ("event-write", address.into()),
        Ok(Outcome::Event(TargetEvent::Stop)) => ("event-stop", 0),
        Err(Error::Bus) => ("bus", 0),
        Err(Error::ArbitrationLoss) => ("arbitration", 0),
        Err(Error::NoAcknowledge) => ("nack", 0),
        Err(Error::Stopped) => ("stopped", 0),
        Err(Error::ExpectedRead) => ("expected-read", 0),
        Err(Error::ExpectedWrite) => ("expected-write", 0),
        Err(Error::Refused(Refusal(number))) => ("refused", number),
    }
}
