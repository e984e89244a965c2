//! Wrong drivers, each made from the proved one by a single error, and the claims that catch them.
//! The same search with the proved driver breaks none.

use std::task::Poll;

use cable::claims::Claim;
use cable::driver::{Call, Driver, Proved};
use cable::exchange::{Direction, Exchange, CARD};
use cable::explore::explore;
use cable::registers::{isr, CR2, ISR, RXDR};
use cable::space::Space;
use huskerivory::{Ack, Error, Outcome, Registers, SavedCall};

type Answered = Poll<Result<Outcome, Error>>;

/// The claims that are broken in a small exchange with these drivers.
fn broken(
    direction: Direction,
    ack: Ack,
    terminal: &'static dyn Driver,
    scoreboard: &'static dyn Driver,
) -> Vec<Claim> {
    let exchange = Exchange::new(direction, ack, &CARD[..4]);
    let mut space = Space::with_drivers(exchange, terminal, scoreboard).unwrap();
    let broken = explore(&mut space, &mut |_| {}).broken;
    broken.into_iter().map(|(claim, _)| claim).collect()
}

#[test]
fn the_proved_driver_breaks_no_claim() {
    for direction in [Direction::Send, Direction::ReadBack] {
        for ack in [Ack::Auto, Ack::Manual] {
            assert_eq!(broken(direction, ack, &Proved, &Proved), []);
        }
    }
}

/// Takes a NACK for the end of the transaction.
struct TakesNackForDone;

impl Driver for TakesNackForDone {
    fn poll(
        &self,
        call: Call<'_>,
        saved: &mut SavedCall,
        buffer: &mut [u8],
        registers: &mut dyn Registers,
    ) -> Answered {
        match Proved.poll(call, saved, buffer, registers) {
            Poll::Ready(Err(Error::NoAcknowledge)) => Poll::Ready(Ok(Outcome::Done(0))),
            poll => poll,
        }
    }
}

#[test]
fn a_terminal_that_takes_nack_for_done() {
    let by = |ack| broken(Direction::Send, ack, &TakesNackForDone, &Proved);
    assert!(by(Ack::Auto).contains(&Claim::CertainMeansAcknowledged));
    assert!(by(Ack::Manual).contains(&Claim::CertainMeansStored));
}

/// Counts one byte too many.
struct CountsOneTooMany;

impl Driver for CountsOneTooMany {
    fn poll(
        &self,
        call: Call<'_>,
        saved: &mut SavedCall,
        buffer: &mut [u8],
        registers: &mut dyn Registers,
    ) -> Answered {
        match Proved.poll(call, saved, buffer, registers) {
            Poll::Ready(Ok(Outcome::Done(count))) => Poll::Ready(Ok(Outcome::Done(count + 1))),
            poll => poll,
        }
    }
}

#[test]
fn a_scoreboard_that_counts_one_too_many() {
    for ack in [Ack::Auto, Ack::Manual] {
        let by = |direction| broken(direction, ack, &Proved, &CountsOneTooMany);
        assert_eq!(by(Direction::ReadBack), [Claim::CountIsPutOut]);
        assert!(by(Direction::Send).contains(&Claim::CountIsStored));
    }
}

/// Registers in which NACKF is never set.
struct WithoutNackf<'a>(&'a mut dyn Registers);

impl Registers for WithoutNackf<'_> {
    fn read(&mut self, offset: u32) -> u32 {
        let value = self.0.read(offset);
        match offset {
            ISR => value & !isr::NACKF,
            _ => value,
        }
    }

    fn write(&mut self, offset: u32, value: u32) {
        self.0.write(offset, value);
    }
}

/// Does not see NACKF.
struct BlindToNackf;

impl Driver for BlindToNackf {
    fn poll(
        &self,
        call: Call<'_>,
        saved: &mut SavedCall,
        buffer: &mut [u8],
        registers: &mut dyn Registers,
    ) -> Answered {
        Proved.poll(call, saved, buffer, &mut WithoutNackf(registers))
    }
}

#[test]
fn a_terminal_that_does_not_see_nackf() {
    let by = |ack| broken(Direction::Send, ack, &BlindToNackf, &Proved);
    assert!(by(Ack::Auto).contains(&Claim::CertainMeansAcknowledged));
    assert!(by(Ack::Manual).contains(&Claim::CertainMeansStored));
}

/// Registers in which ADDR is cleared before NBYTES is set, where the two writes follow each other.
struct AddressFirst<'a> {
    nbytes: Option<u32>,
    registers: &'a mut dyn Registers,
}

impl Registers for AddressFirst<'_> {
    fn read(&mut self, offset: u32) -> u32 {
        self.registers.read(offset)
    }

    fn write(&mut self, offset: u32, value: u32) {
        if offset == CR2 {
            self.nbytes = Some(value);
        } else {
            self.registers.write(offset, value);
        }
    }
}

/// Clears ADDR before NBYTES is set.
struct ClearsAddressFirst;

impl Driver for ClearsAddressFirst {
    fn poll(
        &self,
        call: Call<'_>,
        saved: &mut SavedCall,
        buffer: &mut [u8],
        registers: &mut dyn Registers,
    ) -> Answered {
        let mut swapped = AddressFirst {
            nbytes: None,
            registers,
        };
        let poll = Proved.poll(call, saved, buffer, &mut swapped);
        if let AddressFirst {
            nbytes: Some(value),
            registers,
        } = swapped
        {
            registers.write(CR2, value);
        }
        poll
    }
}

#[test]
fn a_scoreboard_that_clears_the_address_before_nbytes_is_set() {
    let by = |ack| broken(Direction::Send, ack, &Proved, &ClearsAddressFirst);
    assert_eq!(by(Ack::Manual), [Claim::CertainMeansStored]);
    assert_eq!(
        by(Ack::Auto),
        [],
        "without byte control the order is of no account"
    );
}

/// Forgets a poll that had read a certain byte.
struct DropsAPoll(u8);

/// Registers that remember what was read of RXDR.
struct Watched<'a> {
    received: Option<u32>,
    registers: &'a mut dyn Registers,
}

impl Registers for Watched<'_> {
    fn read(&mut self, offset: u32) -> u32 {
        let value = self.registers.read(offset);
        self.received = (offset == RXDR).then_some(value);
        value
    }

    fn write(&mut self, offset: u32, value: u32) {
        self.registers.write(offset, value);
    }
}

impl Driver for DropsAPoll {
    fn poll(
        &self,
        call: Call<'_>,
        saved: &mut SavedCall,
        buffer: &mut [u8],
        registers: &mut dyn Registers,
    ) -> Answered {
        let before = (*saved, buffer.to_vec());
        let mut watched = Watched {
            received: None,
            registers,
        };
        let poll = Proved.poll(call, saved, buffer, &mut watched);
        if watched.received != Some(u32::from(self.0)) {
            return poll;
        }
        *saved = before.0;
        buffer.copy_from_slice(&before.1);
        Poll::Pending
    }
}

#[test]
fn a_poll_that_is_dropped_loses_a_byte() {
    let second = &DropsAPoll(CARD[1]);
    let sent = broken(Direction::Send, Ack::Auto, &Proved, second);
    assert!(sent.contains(&Claim::CertainMeansAcknowledged));
    assert!(sent.contains(&Claim::ArrivesWithCableIn));
    let read = broken(Direction::ReadBack, Ack::Auto, second, &Proved);
    assert!(read.contains(&Claim::ReadWithCableIn));
}
