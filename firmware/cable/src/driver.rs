//! The party that polls a call: the proved driver, or a wrong one that a test swaps in.

use std::fmt;
use std::task::Poll;

use huskerivory::{Description, Error, Operation, Outcome, Refusal, Registers, Running, SavedCall};

/// A call of the library, with its operations.
#[derive(Clone, Copy, Debug)]
pub struct Call<'a> {
    pub description: Description,
    pub operations: &'a [Operation],
}

/// What polls a call that has been begun.
pub trait Driver {
    /// Makes at most one read, which comes first, and then writes. The writes may not depend on
    /// anything that happens after the read.
    fn poll(
        &self,
        call: Call<'_>,
        saved: &mut SavedCall,
        buffer: &mut [u8],
        registers: &mut dyn Registers,
    ) -> Poll<Result<Outcome, Error>>;
}

/// The proved driver, through the firmware library.
pub struct Proved;

impl Driver for Proved {
    fn poll(
        &self,
        call: Call<'_>,
        saved: &mut SavedCall,
        buffer: &mut [u8],
        registers: &mut dyn Registers,
    ) -> Poll<Result<Outcome, Error>> {
        let mut running = Running::resume(call.description, call.operations, buffer, *saved)?;
        let poll = running.poll(registers);
        *saved = running.saved();
        poll
    }
}

/// What a call said at its end.
#[derive(Clone, Copy, Debug, PartialEq, Eq, Hash, PartialOrd, Ord)]
pub enum Answer {
    /// `done`, and a target's transfer counts so many bytes.
    Done(u32),
    Bus,
    Arbitration,
    Nack,
    Stopped,
    ExpectedRead,
    ExpectedWrite,
    Event,
    Refused(u32),
}

impl From<Result<Outcome, Error>> for Answer {
    fn from(ended: Result<Outcome, Error>) -> Self {
        match ended {
            Ok(Outcome::Done(count)) => Answer::Done(count),
            Ok(Outcome::Event(_)) => Answer::Event,
            Err(Error::Bus) => Answer::Bus,
            Err(Error::ArbitrationLoss) => Answer::Arbitration,
            Err(Error::NoAcknowledge) => Answer::Nack,
            Err(Error::Stopped) => Answer::Stopped,
            Err(Error::ExpectedRead) => Answer::ExpectedRead,
            Err(Error::ExpectedWrite) => Answer::ExpectedWrite,
            Err(Error::Refused(Refusal(number))) => Answer::Refused(number),
        }
    }
}

impl fmt::Display for Answer {
    fn fmt(&self, f: &mut fmt::Formatter<'_>) -> fmt::Result {
        match self {
            Answer::Done(count) => write!(f, "done {count}"),
            _ => f.write_str(self.word()),
        }
    }
}

impl Answer {
    /// Document 01's word for it.
    pub fn word(self) -> &'static str {
        match self {
            Answer::Done(_) => "done",
            Answer::Bus => "bus",
            Answer::Arbitration => "arbitration",
            Answer::Nack => "nack",
            Answer::Stopped => "stopped",
            Answer::ExpectedRead => "expected-read",
            Answer::ExpectedWrite => "expected-write",
            Answer::Event => "event",
            Answer::Refused(_) => "refused",
        }
    }
}
