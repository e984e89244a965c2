//! A call under way.

use core::task::Poll;

use crate::boundary::{self, Entry, Next, Report};
use crate::{Description, Error, Operation, Outcome, Refusal, Registers, SavedCall};

/// The places of a log. One read and the writes up to the next are at most six accesses.
const PLACES: usize = 8;

/// A call that goes on by one register read at a time, with the operations and the buffer that are
/// lent to it. Between two polls it is the saved call and nothing else: it can be stored, dropped
/// and taken up again.
#[derive(Debug)]
pub struct Running<'a> {
    description: Description,
    operations: &'a [Operation],
    buffer: &'a mut [u8],
    saved: SavedCall,
    awaited: Option<u32>,
}

impl<'a> Running<'a> {
    /// Begins a call. No register is touched yet.
    pub fn begin(
        description: Description,
        operations: &'a [Operation],
        buffer: &'a mut [u8],
    ) -> Result<Self, Refusal> {
        let saved = boundary::begin(description, operations, buffer)?;
        Self::resume(description, operations, buffer, saved)
    }

    /// Takes a call up where it was saved. Description and operations have to be those that it was
    /// begun with, the buffer as it was left.
    pub fn resume(
        description: Description,
        operations: &'a [Operation],
        buffer: &'a mut [u8],
        saved: SavedCall,
    ) -> Result<Self, Refusal> {
        let awaited = match boundary::next(description, operations, &saved, buffer)? {
            Next::Read(offset) => Some(offset),
            Next::Over | Next::Write => None,
        };
        Ok(Running {
            description,
            operations,
            buffer,
            saved,
            awaited,
        })
    }

    /// Goes on: reads the awaited register, if there is one, and makes all writes up to the next
    /// read or the end. So it makes at most six accesses and never waits. Once it was ready it says
    /// the same again.
    pub fn poll<R>(&mut self, registers: &mut R) -> Poll<Result<Outcome, Error>>
    where
        R: Registers + ?Sized,
    {
        self.poll_by::<PLACES, R>(registers)
    }

    /// A poll whose advances have so many log places, at least one. The answer is used by the first.
    fn poll_by<const N: usize, R>(&mut self, registers: &mut R) -> Poll<Result<Outcome, Error>>
    where
        R: Registers + ?Sized,
    {
        let mut answer = self.awaited.take().map(|offset| registers.read(offset));
        loop {
            match self.advance::<N, R>(registers, &mut answer) {
                Report::Over(ended) => return Poll::Ready(ended),
                Report::Waiting(offset) => {
                    self.awaited = Some(offset);
                    return Poll::Pending;
                }
                Report::Full => {}
            }
        }
    }

    /// One advance. The log's reads were made before; its writes are made here.
    fn advance<const N: usize, R>(&mut self, registers: &mut R, answer: &mut Option<u32>) -> Report
    where
        R: Registers + ?Sized,
    {
        let mut log = [Entry::BLANK; N];
        let advance = boundary::advance(
            self.description,
            self.operations,
            &mut self.saved,
            self.buffer,
            *answer,
            &mut log,
        );
        if advance.used > 0 {
            *answer = None;
        }
        for (offset, value) in log.iter().take(advance.written).filter_map(Entry::as_write) {
            registers.write(offset, value);
        }
        advance.report
    }

    /// The offset of the register that the next poll reads, if it reads one.
    pub fn awaited(&self) -> Option<u32> {
        self.awaited
    }

    /// Where the call stands.
    pub fn saved(&self) -> SavedCall {
        self.saved
    }

    /// The lent bytes as they are now.
    pub fn buffer(&self) -> &[u8] {
        self.buffer
    }
}

/// Makes a call to its end.
pub(crate) fn run<R>(
    registers: &mut R,
    description: Description,
    operations: &[Operation],
    buffer: &mut [u8],
) -> Result<Outcome, Error>
where
    R: Registers + ?Sized,
{
    let mut running = Running::begin(description, operations, buffer)?;
    loop {
        if let Poll::Ready(ended) = running.poll(registers) {
            return ended;
        }
    }
}

#[cfg(test)]
mod tests {
    extern crate std;

    use super::*;
    use std::{vec, vec::Vec};

    struct Scripted {
        answers: Vec<u32>,
        accesses: Vec<(char, u32, u32)>,
    }

    impl Registers for Scripted {
        fn read(&mut self, offset: u32) -> u32 {
            let value = self.answers.remove(0);
            self.accesses.push(('r', offset, value));
            value
        }

        fn write(&mut self, offset: u32, value: u32) {
            self.accesses.push(('w', offset, value));
        }
    }

    /// `nack_transfer`, polled with so many log places: each of its two reads has its own answer.
    fn nack_transfer<const N: usize>() {
        let mut registers = Scripted {
            answers: vec![0x101_0000, 0x102_8000],
            accesses: vec![],
        };
        let mut running = Running::begin(Description::nack_transfer(), &[], &mut []).unwrap();
        assert_eq!(running.poll_by::<N, _>(&mut registers), Poll::Pending);
        assert_eq!(registers.accesses.len(), 2);
        assert_eq!(
            running.poll_by::<N, _>(&mut registers),
            Poll::Ready(Ok(Outcome::Done(0)))
        );
        assert_eq!(
            registers.accesses,
            [
                ('r', 4, 0x101_0000),
                ('w', 4, 0x101_8000),
                ('r', 4, 0x102_8000),
                ('w', 4, 0x2_8000)
            ]
        );
    }

    #[test]
    fn a_full_log_is_emptied() {
        nack_transfer::<1>();
        nack_transfer::<2>();
        nack_transfer::<PLACES>();
    }
}
