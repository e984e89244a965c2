//! A cable that is pulled at every moment while a golf card goes across.
//!
//! An entry terminal sends the card to a scoreboard over I2C. Both have a simulated I2C peripheral
//! ([`peripheral`]), and firmware that polls calls of the proved driver through the library
//! `huskerivory` ([`driver`], [`exchange`], [`end`]). [`bus`] joins the two by a cable that can be
//! pulled and put back. [`explore`] looks at every situation that this can come to ([`space`]) and
//! at every ending ([`ending`]), and checks what is claimed of them ([`claims`]); [`walk`] plays
//! one run, chosen by a seed. [`page`] is what the program prints.
//!
//! One step is one register access of one end, or one START, clock pulse or STOP on the bus, or the
//! cable pulled or put back. Any step that can be made may be the next one, so a flag may rise
//! between any two accesses, and waiting has no bound. The bounds are that the cable is pulled once
//! at most and put back once at most, and what either can look like ([`bus::PULLS`],
//! [`bus::PUT_BACKS`]).

#![forbid(unsafe_code)]

pub mod bus;
pub mod claims;
pub mod driver;
pub mod end;
pub mod ending;
pub mod exchange;
pub mod explore;
pub mod page;
pub mod peripheral;
pub mod registers;
pub mod space;
pub mod walk;
