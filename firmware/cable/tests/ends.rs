//! An end of the cable: every register access is a step of its own.

use cable::driver::{Answer, Proved};
use cable::end::End;
use cable::exchange::{Direction, Exchange, Place, CARD};
use cable::registers::{cr2, isr, CR2, ISR};
use huskerivory::{Ack, Registers};

/// A scoreboard that has been called with this address byte, and has acknowledged.
fn called(exchange: &Exchange, address_byte: u8) -> End {
    let (_, mut scoreboard) = exchange.ends().unwrap();
    scoreboard.i2c.start();
    for bit in (0..8).rev() {
        scoreboard.i2c.pulse(address_byte >> bit & 1 != 0);
    }
    scoreboard.i2c.pulse(false);
    scoreboard
}

#[test]
fn writes_are_made_one_at_a_time() {
    let exchange = Exchange::new(Direction::Send, Ack::Manual, &CARD);
    let mut scoreboard = called(&exchange, 0xA0);
    // A status read and five modifies of a read and a write, the last of which sets NBYTES; then
    // ADDR is cleared.
    let mut seen = vec![];
    for _ in 0..12 {
        scoreboard.access(&exchange, Place::Scoreboard, &Proved);
        let is_called = scoreboard.i2c.read(ISR) & isr::ADDR != 0;
        seen.push((cr2::nbytes(scoreboard.i2c.read(CR2)), is_called));
    }
    assert!(seen[..10].iter().all(|now| *now == (0, true)));
    assert_eq!(seen[10..], [(18, true), (18, false)]);
}

#[test]
fn an_access_that_finds_nothing_changes_nothing() {
    let exchange = Exchange::new(Direction::Send, Ack::Auto, &CARD);
    let (_, scoreboard) = exchange.ends().unwrap();
    let mut later = scoreboard.clone();
    later.access(&exchange, Place::Scoreboard, &Proved);
    assert_eq!(later, scoreboard);
}

#[test]
fn an_answer_is_taken_after_the_last_write() {
    let exchange = Exchange::new(Direction::Send, Ack::Auto, &CARD);
    let mut scoreboard = called(&exchange, 0xA1);
    scoreboard.access(&exchange, Place::Scoreboard, &Proved);
    assert_eq!(scoreboard.answers, [], "ADDR is still to be cleared");
    scoreboard.access(&exchange, Place::Scoreboard, &Proved);
    assert_eq!(scoreboard.answers, [Answer::ExpectedWrite]);
}
