//! The exchanges: what the firmware of the terminal and of the scoreboard calls, in which order.

use std::fmt;

use huskerivory::{
    Ack, Address, Description, Error, I2c, I2cTarget, Operation, RawTimingr, TargetConfig,
    TargetListenEvent,
};

use crate::driver::{Answer, Call};
use crate::end::End;
use crate::peripheral::SimulatedI2c;

/// The address of the scoreboard.
const SCOREBOARD: u8 = 0x50;

/// Strokes on the eighteen holes.
pub const CARD: [u8; 18] = [4, 5, 3, 4, 4, 6, 3, 5, 4, 5, 4, 3, 4, 5, 4, 4, 3, 5];

/// What stands in memory where no hole has come. No hole has it, nor have bits of holes that came
/// out of step or with ones of a pulled cable among them.
pub const EMPTY: u8 = 0x5A;

/// The way that the card goes.
#[derive(Clone, Copy, Debug, PartialEq, Eq)]
pub enum Direction {
    /// The terminal sends the card, as a transaction of two write operations.
    Send,
    /// The terminal reads the first holes of the card back.
    ReadBack,
}

/// The two ends of the cable.
#[derive(Clone, Copy, Debug, PartialEq, Eq)]
pub enum Place {
    Terminal,
    Scoreboard,
}

/// An exchange: a card, the way it goes, and who acknowledges at the scoreboard.
#[derive(Clone, Debug)]
pub struct Exchange {
    pub direction: Direction,
    pub ack: Ack,
    card: Vec<u8>,
    /// How many holes are to cross the cable, from the first on.
    crossing: usize,
    operations: Vec<Operation>,
    /// Places that the scoreboard's buffer has beyond the card.
    spare: usize,
}

impl fmt::Display for Exchange {
    fn fmt(&self, f: &mut fmt::Formatter<'_>) -> fmt::Result {
        let direction = match self.direction {
            Direction::Send => "card sent",
            Direction::ReadBack => "card read back",
        };
        let holes = self.holes().len();
        write!(f, "{direction}, {holes} holes, {:?}Ack", self.ack)
    }
}

impl Exchange {
    /// An exchange of a card with up to 65,535 bytes, of which the strokes on a hole are one. Read back
    /// is its first half.
    pub fn new(direction: Direction, ack: Ack, card: &[u8]) -> Self {
        let first = card.len() as u16 / 2;
        let second = card.len() as u16 - first;
        let (crossing, operations) = match direction {
            Direction::Send => (
                card.len(),
                vec![Operation::write(first), Operation::write(second)],
            ),
            Direction::ReadBack => (first.into(), vec![Operation::read(first)]),
        };
        Exchange {
            direction,
            ack,
            card: card.to_vec(),
            crossing,
            operations,
            spare: 0,
        }
    }

    /// An exchange in which so many holes of a card are read back, up to all of them.
    pub fn reading(holes: u16, ack: Ack, card: &[u8]) -> Self {
        Exchange {
            crossing: holes.into(),
            operations: vec![Operation::read(holes)],
            ..Exchange::new(Direction::ReadBack, ack, card)
        }
    }

    /// The same exchange with a larger buffer at the scoreboard, for a card that is sent.
    pub fn with_spare(mut self, places: usize) -> Self {
        self.spare = places;
        self
    }

    /// The holes that are to cross the cable.
    pub fn holes(&self) -> &[u8] {
        &self.card[..self.crossing]
    }

    /// What the firmware at this place calls after these answers; nothing once it is finished.
    /// After an error it makes no further call.
    pub fn call(&self, place: Place, answers: &[Answer]) -> Option<Call<'_>> {
        let description = match place {
            Place::Terminal => answers
                .is_empty()
                .then(|| Description::transaction(Address::SevenBit(SCOREBOARD))),
            Place::Scoreboard => self.scoreboard_call(answers),
        };
        let operations: &[Operation] = match place {
            Place::Terminal => &self.operations,
            Place::Scoreboard => &[],
        };
        description.map(|description| Call {
            description,
            operations,
        })
    }

    fn scoreboard_call(&self, answers: &[Answer]) -> Option<Description> {
        let whole = Answer::Done(self.card.len() as u32);
        let acks = self.direction == Direction::Send && self.ack == Ack::Manual;
        match answers {
            [] => Some(match self.direction {
                Direction::Send => Description::wait_for_target_read(self.ack),
                Direction::ReadBack => Description::wait_for_target_write(self.ack),
            }),
            // The last hole is in memory and not acknowledged yet. If fewer came, a stop or a new
            // start has ended the transfer, and there is nothing to acknowledge.
            [count] if acks && *count == whole => Some(Description::ack_transfer()),
            [Answer::Done(_)] => Some(Description::wait_for_stop(self.ack)),
            [count, Answer::Done(_)] if acks && *count == whole => {
                Some(Description::wait_for_stop(self.ack))
            }
            _ => None,
        }
    }

    /// Both ends as they are before the exchange, set up by the library.
    pub fn ends(&self) -> Result<(End, End), Error> {
        let timing = RawTimingr::for_bus(250_000_000, 400_000)?;
        let controller = I2c::new(SimulatedI2c::default(), timing, None)?.free();
        let config = TargetConfig::new(u16::from(SCOREBOARD));
        let mut target = I2cTarget::new(SimulatedI2c::default(), timing, config)?;
        target.enable_target_event(TargetListenEvent::PrimaryAddress)?;
        let target = target.free();
        let (terminal, scoreboard) = match self.direction {
            Direction::Send => (self.card.clone(), vec![EMPTY; self.card.len() + self.spare]),
            Direction::ReadBack => (vec![EMPTY; self.holes().len()], self.card.clone()),
        };
        Ok((
            End::new(self, Place::Terminal, controller, terminal)?,
            End::new(self, Place::Scoreboard, target, scoreboard)?,
        ))
    }
}
