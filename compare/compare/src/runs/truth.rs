//! What an uncut run comes to: the Rust's run, but for what is known to differ, or document 01's
//! refusal.

use oracle::{run_over, Access, Asked, RegisterBlock};

use crate::calls::known::{End, Known};
use crate::calls::tally;
use crate::rattle::{REFUSED, WAITING};

/// Memory of the Rust's runs, one after the other.
#[derive(Default)]
pub struct Truth {
    registers: RegisterBlock,
    buffer: Vec<u8>,
}

/// An uncut run.
#[derive(Clone, Copy)]
pub struct Uncut<'a> {
    /// As an advance reports it; `full` it cannot be.
    pub report: u32,
    pub value: u32,
    /// What the Rust does otherwise.
    pub known: Option<Known>,
    /// Answers taken.
    pub used: usize,
    pub log: &'a [Access],
    pub buffer: &'a [u8],
}

impl Truth {
    /// What no document tells of the Rust's run is an error.
    pub fn run(
        &mut self,
        asked: &Asked,
        buffer: &[u8],
        answers: &[u32],
    ) -> Result<Uncut<'_>, String> {
        self.buffer.clear();
        self.buffer.extend_from_slice(buffer);
        let refusal = asked.refusal(buffer.len());
        self.registers
            .load(if refusal.is_none() { answers } else { &[] });
        let (report, value, known) = match refusal {
            Some(refusal) => (REFUSED, refusal, None),
            None => {
                let end = self.accepted(asked)?;
                (tally::place(end.word) as u32, end.value, end.known)
            }
        };
        Ok(Uncut {
            report,
            value,
            known,
            used: self.registers.used(),
            log: self.registers.log(),
            buffer: &self.buffer,
        })
    }

    /// The log and the buffer of the last run.
    pub fn last(&mut self) -> (&[Access], &[u8]) {
        (self.registers.log(), &self.buffer)
    }

    fn accepted(&mut self, asked: &Asked) -> Result<End, String> {
        let description = asked.description(self.buffer.len());
        let description = description.expect("the driver can express what is accepted");
        let (outcome, value) = run_over(&self.registers, &description, &mut self.buffer);
        let (call, length) = (asked.call, self.buffer.len());
        End::of(call, length, &outcome, value, self.registers.log())
    }
}

impl Uncut<'_> {
    pub fn has_ended(&self) -> bool {
        self.report < WAITING
    }

    pub fn is_refused(&self) -> bool {
        self.report == REFUSED
    }
}
