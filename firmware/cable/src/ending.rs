//! How an exchange ended, and the kinds of endings that the page tells apart.

use crate::bus::Cable;
use crate::driver::Answer;
use crate::exchange::{Direction, Exchange, EMPTY};
use crate::space::{Situation, Space};

/// An ending: each end has finished or waits for ever, with the cable left as it is.
#[derive(Clone, Debug, PartialEq, Eq)]
pub struct Ending {
    pub cable: Cable,
    /// What the terminal's transaction said, if it ended.
    pub terminal: Option<Answer>,
    /// What the scoreboard's calls said, those that ended.
    pub scoreboard: Vec<Answer>,
    /// The memory that the holes were to go to.
    pub received: Vec<u8>,
    /// Bytes that the scoreboard's peripheral put on its line whole.
    pub bytes_out: u32,
}

impl Ending {
    pub fn of(space: &Space, situation: Situation) -> Self {
        let terminal = space.terminal(situation);
        let scoreboard = space.scoreboard(situation);
        Ending {
            cable: situation.cable,
            terminal: terminal.answers.first().copied(),
            scoreboard: scoreboard.answers.clone(),
            received: match space.exchange.direction {
                Direction::Send => scoreboard.buffer.clone(),
                Direction::ReadBack => terminal.buffer.clone(),
            },
            bytes_out: scoreboard.i2c.bytes_out(),
        }
    }

    /// The terminal said `done`.
    pub fn is_certain(&self) -> bool {
        matches!(self.terminal, Some(Answer::Done(_)))
    }

    /// The holes that the scoreboard's transfer counted, if it said `done`.
    pub fn count(&self) -> Option<u32> {
        match self.scoreboard.first() {
            Some(&Answer::Done(count)) => Some(count),
            _ => None,
        }
    }

    /// Holes that arrived as they were sent.
    pub fn right(&self, exchange: &Exchange) -> usize {
        let both = self.received.iter().zip(exchange.holes());
        both.filter(|(received, sent)| received == sent).count()
    }

    /// Places that no hole came to.
    pub fn missing(&self) -> usize {
        self.received.iter().filter(|&&hole| hole == EMPTY).count()
    }

    /// Holes that arrived with other strokes than were sent.
    pub fn misread(&self, exchange: &Exchange) -> usize {
        self.received.len() - self.right(exchange) - self.missing()
    }

    pub fn kind(&self, exchange: &Exchange) -> Kind {
        let holes = exchange.holes().len();
        Kind {
            cable: self.cable,
            terminal: Said::of(self.terminal, 0),
            scoreboard: Said::of(self.scoreboard.first().copied(), holes as u32),
            all_right: self.right(exchange) == holes,
        }
    }
}

/// What an end said, as the page tells it apart.
#[derive(Clone, Copy, Debug, PartialEq, Eq, PartialOrd, Ord)]
pub enum Said {
    /// `done`, with all the holes.
    Done,
    /// `done`, with fewer holes.
    Fewer,
    /// An error.
    Failed,
    /// Nothing: it waits for ever.
    Waiting,
}

impl Said {
    fn of(answer: Option<Answer>, holes: u32) -> Self {
        match answer {
            Some(Answer::Done(count)) if count < holes => Said::Fewer,
            Some(Answer::Done(_)) => Said::Done,
            Some(_) => Said::Failed,
            None => Said::Waiting,
        }
    }
}

/// A kind of ending.
#[derive(Clone, Copy, Debug, PartialEq, Eq, PartialOrd, Ord)]
pub struct Kind {
    pub cable: Cable,
    pub terminal: Said,
    /// By the count of its transfer.
    pub scoreboard: Said,
    /// Every hole arrived as it was sent.
    pub all_right: bool,
}

impl Kind {
    /// The terminal said `done`.
    pub fn is_certain(self) -> bool {
        self.terminal == Said::Done
    }

    /// There are 96 kinds, so each has its own bit.
    fn bit(self) -> u128 {
        let place = (self.cable as u32 * 4 + self.terminal as u32) * 4 + self.scoreboard as u32;
        1 << (place * 2 + u32::from(self.all_right))
    }
}

/// A set of kinds.
#[derive(Clone, Copy, Debug, Default, PartialEq, Eq)]
pub struct Kinds(u128);

impl Kinds {
    pub fn one(kind: Kind) -> Self {
        Kinds(kind.bit())
    }

    pub fn meets(self, others: Kinds) -> bool {
        self.0 & others.0 != 0
    }

    pub fn is_empty(self) -> bool {
        self.0 == 0
    }

    pub fn union(self, others: Kinds) -> Kinds {
        Kinds(self.0 | others.0)
    }
}

impl FromIterator<Kind> for Kinds {
    fn from_iter<I: IntoIterator<Item = Kind>>(kinds: I) -> Self {
        let sets = kinds.into_iter().map(Kinds::one);
        sets.fold(Kinds::default(), Kinds::union)
    }
}
