//! Document 01's calls, as a caller of the oracle describes and gets them back.

use std::borrow::Cow;

use crate::panics::{catch, Left, Panic};
use crate::{Access, RegisterBlock};

/// A call as document 01 describes it. Only the fields of the call's own are looked at.
#[derive(Clone, Debug, Default)]
pub struct Description<'a> {
    /// 1 to 15, or 24 to 29 for the manual forms of 8 to 13.
    pub call: u32,
    /// The address of 7. A 7-bit one is a byte to the driver.
    pub address: u16,
    pub ten_bit: bool,
    /// The operations of 7 as the driver is given them: length in bits 0 to 15, bit 16 set for a
    /// read. It panics at one of over 255 bytes; [`crate::cut()`] has them shorter.
    pub operations: Cow<'a, [u32]>,
    /// What 4 and 5 switch: 0 general, 1 primary, 2 secondary.
    pub listen: u32,
    /// The TIMINGR word of 1 and 2.
    pub timingr: u32,
    /// For 2 and 3 always, for 1 perhaps.
    pub configuration: Option<Configuration>,
}

/// The addresses that a target answers to.
#[derive(Clone, Copy, Debug, Default)]
pub struct Configuration {
    pub own_address: u16,
    pub ten_bit: bool,
    pub secondary_address: Option<u8>,
    pub mask: Option<u8>,
    /// In which of [`WAYS`] the driver's own configuration is built. Nothing may depend on it.
    pub way: u32,
}

/// The driver's configuration has four setters, which can be called in 24 orders: either those
/// alone that say something new, or all of them, on a configuration of another address.
pub const WAYS: u32 = 48;

/// How a call came out: document 01's outcomes but `refused`, and the driver's own panics.
#[derive(Clone, Debug, PartialEq, Eq)]
pub enum Outcome {
    Done,
    Bus,
    Arbitration,
    Nack,
    Stopped,
    ExpectedWrite,
    ExpectedRead,
    EventRead,
    EventWrite,
    EventStop,
    Waiting,
    Panicked(Panic),
}

impl Outcome {
    /// Document 01's word.
    pub fn word(&self) -> &'static str {
        match self {
            Outcome::Done => "done",
            Outcome::Bus => "bus",
            Outcome::Arbitration => "arbitration",
            Outcome::Nack => "nack",
            Outcome::Stopped => "stopped",
            Outcome::ExpectedWrite => "expected-write",
            Outcome::ExpectedRead => "expected-read",
            Outcome::EventRead => "event-read",
            Outcome::EventWrite => "event-write",
            Outcome::EventStop => "event-stop",
            Outcome::Waiting => "waiting",
            Outcome::Panicked(_) => "panicked",
        }
    }
}

/// All that a run shows but the buffer, which is the caller's.
#[derive(Clone, Debug, PartialEq, Eq)]
pub struct Run {
    pub outcome: Outcome,
    /// The count or address of an outcome that has one, else 0.
    pub value: u32,
    /// Answers taken.
    pub used: usize,
    pub log: Vec<Access>,
}

/// Performs a call with the driver until it ends or a read finds no answer.
///
/// Panics on a description that the driver's types cannot express.
pub fn run(description: &Description, buffer: &mut [u8], answers: &[u32]) -> Run {
    let mut registers = RegisterBlock::default();
    registers.load(answers);
    let (outcome, value) = run_over(&registers, description, buffer);
    Run {
        outcome,
        value,
        used: registers.used(),
        log: registers.into_log(),
    }
}

/// As [`run`], over registers that were loaded with the answers and then hold the log: for callers
/// that use one block for many runs.
pub fn run_over(
    registers: &RegisterBlock,
    description: &Description,
    buffer: &mut [u8],
) -> (Outcome, u32) {
    catch(|| description.perform(registers, buffer)).unwrap_or_else(|left| match left {
        Left::NoAnswer => (Outcome::Waiting, 0),
        Left::Panicked(panic) => (Outcome::Panicked(panic), 0),
    })
}

/// Performs a call with answers that are chosen by the offset of the register read, until it ends
/// or none is chosen, and gives the answers.
pub fn explore(
    description: &Description,
    buffer: &mut [u8],
    choose: impl FnMut(u32) -> Option<u32> + 'static,
) -> Vec<u32> {
    let mut registers = RegisterBlock::default();
    registers.answer_by(choose);
    run_over(&registers, description, buffer);
    let reads = registers.log().iter().filter(|access| access[0] < 0x100);
    reads.map(|access| access[1]).collect()
}
