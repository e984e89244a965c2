//! One end of the cable: a peripheral and the firmware that polls it.

use std::collections::VecDeque;
use std::ops::Range;
use std::task::Poll;

use huskerivory::{Refusal, Registers, Running, SavedCall};

use crate::driver::{Answer, Driver};
use crate::exchange::{Exchange, Place};
use crate::peripheral::SimulatedI2c;

/// A peripheral with its firmware. Equal ends go on alike.
#[derive(Clone, Debug, PartialEq, Eq, Hash)]
pub struct End {
    pub i2c: SimulatedI2c,
    /// The bytes that are lent to its calls.
    pub buffer: Vec<u8>,
    /// What the calls that have ended said.
    pub answers: Vec<Answer>,
    /// The saved call, its count of accesses left at 0.
    saved: [u8; SavedCall::LENGTH],
    /// Writes of the last poll that are still to be made, by offset and value.
    writes: VecDeque<(u32, u32)>,
    /// What the running call said, its writes not all made yet.
    ended: Option<Answer>,
}

/// Where the count of accesses stands in a saved call. The driver takes any number there.
const ACCESSES: Range<usize> = 16..20;

/// The registers as a poll sees them: the read is made, the writes are put off.
///
/// This changes nothing but when they are made. All writes of a poll follow from the word that was
/// read, and the driver has laid them all out before the first of them is made.
struct Deferring<'a> {
    i2c: &'a mut SimulatedI2c,
    writes: &'a mut VecDeque<(u32, u32)>,
    has_read: bool,
}

impl Registers for Deferring<'_> {
    fn read(&mut self, offset: u32) -> u32 {
        self.has_read = true;
        self.i2c.read(offset)
    }

    fn write(&mut self, offset: u32, value: u32) {
        self.writes.push_back((offset, value));
    }
}

impl End {
    /// An end whose firmware has begun its first call.
    pub fn new(
        exchange: &Exchange,
        place: Place,
        i2c: SimulatedI2c,
        buffer: Vec<u8>,
    ) -> Result<Self, Refusal> {
        let mut end = End {
            i2c,
            buffer,
            answers: vec![],
            saved: SavedCall::NONE.to_bytes(),
            writes: VecDeque::new(),
            ended: None,
        };
        end.begin(exchange, place)?;
        Ok(end)
    }

    /// Makes the next access of its firmware: one read or one write of a register.
    pub fn access(&mut self, exchange: &Exchange, place: Place, driver: &dyn Driver) {
        let has_read = self.writes.is_empty() && self.poll(exchange, place, driver);
        if !has_read {
            if let Some((offset, value)) = self.writes.pop_front() {
                self.i2c.write(offset, value);
            }
        }
        self.go_on(exchange, place);
    }

    /// Polls the running call. Says whether that made a read.
    fn poll(&mut self, exchange: &Exchange, place: Place, driver: &dyn Driver) -> bool {
        let Some(call) = exchange.call(place, &self.answers) else {
            return false;
        };
        let mut saved = SavedCall::from_bytes(self.saved);
        let mut registers = Deferring {
            i2c: &mut self.i2c,
            writes: &mut self.writes,
            has_read: false,
        };
        let poll = driver.poll(call, &mut saved, &mut self.buffer, &mut registers);
        let has_read = registers.has_read;
        self.saved = saved.to_bytes();
        self.saved[ACCESSES].fill(0);
        if let Poll::Ready(ended) = poll {
            self.ended = Some(Answer::from(ended));
        }
        has_read
    }

    /// Takes the answer of a call that has ended and has made its writes, and begins the next.
    fn go_on(&mut self, exchange: &Exchange, place: Place) {
        if !self.writes.is_empty() {
            return;
        }
        if let Some(answer) = self.ended.take() {
            self.answers.push(answer);
            if let Err(Refusal(number)) = self.begin(exchange, place) {
                self.answers.push(Answer::Refused(number));
            }
        }
    }

    /// Begins the call that comes next, if there is one. No register is touched.
    fn begin(&mut self, exchange: &Exchange, place: Place) -> Result<(), Refusal> {
        self.saved = match exchange.call(place, &self.answers) {
            Some(call) => {
                Running::begin(call.description, call.operations, &mut self.buffer)?.saved()
            }
            None => SavedCall::NONE,
        }
        .to_bytes();
        Ok(())
    }
}
