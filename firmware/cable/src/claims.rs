//! What is claimed of every ending, and checked on each.

use huskerivory::Ack;

use crate::bus::Cable;
use crate::driver::Answer;
use crate::ending::Ending;
use crate::exchange::{Direction, Exchange, EMPTY};

/// A claim about every ending of an exchange.
#[derive(Clone, Copy, Debug, PartialEq, Eq)]
pub enum Claim {
    /// Card sent, ManualAck: if the terminal is certain, no hole is missing in the scoreboard's
    /// memory.
    CertainMeansStored,
    /// Card sent, AutoAck: if the terminal is certain, none but the last hole can be missing, and
    /// then the scoreboard says `bus`.
    CertainMeansAcknowledged,
    /// Card sent: if the terminal is certain, one hole at most is misread, by a one in place of a
    /// zero.
    CertainMeansOneBit,
    /// Card sent: the scoreboard counts the holes that it stored, from the first on.
    CountIsStored,
    /// Card sent, cable left in: every hole arrives as it was sent.
    ArrivesWithCableIn,
    /// Read back, cable left in: the terminal is certain, and every hole arrives.
    ReadWithCableIn,
    /// Read back: the scoreboard counts the holes that its peripheral put out, or one fewer if the
    /// byte after the last was not asked for in time; never more.
    CountIsPutOut,
}

impl Claim {
    pub const ALL: [Claim; 7] = [
        Claim::CertainMeansStored,
        Claim::CertainMeansAcknowledged,
        Claim::CertainMeansOneBit,
        Claim::CountIsStored,
        Claim::ArrivesWithCableIn,
        Claim::ReadWithCableIn,
        Claim::CountIsPutOut,
    ];

    /// For a reader of the page.
    pub fn text(self) -> &'static str {
        match self {
            Claim::CertainMeansStored => {
                "Card sent, ManualAck: if the terminal is certain, every hole is in the scoreboard"
            }
            Claim::CertainMeansAcknowledged => {
                "Card sent, AutoAck: so too, but for the last one, and then the scoreboard says bus"
            }
            Claim::CertainMeansOneBit => {
                "Card sent: if the terminal is certain, at most one hole is misread, by one bit"
            }
            Claim::CountIsStored => "Card sent: the scoreboard counts the holes that it stored",
            Claim::ArrivesWithCableIn => {
                "Card sent, cable left in: every hole arrives as it was sent"
            }
            Claim::ReadWithCableIn => {
                "Read back, cable left in: the terminal is certain and every hole is right"
            }
            Claim::CountIsPutOut => {
                "Read back: the scoreboard counts the holes that left its chip, or one fewer"
            }
        }
    }

    /// The claims about an exchange.
    pub fn about(exchange: &Exchange) -> &'static [Claim] {
        match (exchange.direction, exchange.ack) {
            (Direction::Send, Ack::Auto) => &[
                Claim::CertainMeansAcknowledged,
                Claim::CertainMeansOneBit,
                Claim::CountIsStored,
                Claim::ArrivesWithCableIn,
            ],
            (Direction::Send, Ack::Manual) => &[
                Claim::CertainMeansStored,
                Claim::CertainMeansOneBit,
                Claim::CountIsStored,
                Claim::ArrivesWithCableIn,
            ],
            (Direction::ReadBack, _) => &[Claim::ReadWithCableIn, Claim::CountIsPutOut],
        }
    }

    /// Whether it holds of an ending.
    pub fn holds(self, exchange: &Exchange, ending: &Ending) -> bool {
        let left_in = ending.cable == Cable::In;
        let all_right = ending.right(exchange) == exchange.holes().len();
        match self {
            Claim::CertainMeansStored => !ending.is_certain() || ending.missing() == 0,
            Claim::CertainMeansAcknowledged => {
                let only_last = ending.missing() == 1 && ending.received.last() == Some(&EMPTY);
                !ending.is_certain()
                    || ending.missing() == 0
                    || only_last && ending.scoreboard == [Answer::Bus]
            }
            Claim::CertainMeansOneBit => {
                let both = ending.received.iter().zip(exchange.holes());
                let mut misread = both.filter(|(there, sent)| there != sent && **there != EMPTY);
                let by_one_bit = misread.next().is_none_or(|(there, sent)| {
                    (there & !sent).count_ones() == 1 && sent & !there == 0
                });
                !ending.is_certain() || by_one_bit && misread.next().is_none()
            }
            Claim::CountIsStored => ending.count().is_none_or(|count| {
                let mut stored = ending.received.iter().map(|&hole| hole != EMPTY);
                stored.by_ref().take(count as usize).all(|is| is) && stored.all(|is| !is)
            }),
            Claim::ArrivesWithCableIn => !left_in || all_right,
            Claim::ReadWithCableIn => !left_in || ending.is_certain() && all_right,
            Claim::CountIsPutOut => ending
                .count()
                .is_none_or(|count| count == ending.bytes_out || count + 1 == ending.bytes_out),
        }
    }
}
