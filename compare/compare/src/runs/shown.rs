//! What a run of a transaction shows of operations that take more than a piece, read off its log.

use oracle::{Access, Asked};

use super::cut::Side;
use crate::calls::chip::*;
use crate::calls::pieces::{self, is_control, Piece};
use crate::calls::tally::WORDS;
use crate::rattle::WAITING;

/// The most pieces that a list has: 63 empty operations and one of 65,535 bytes.
const MOST: usize = 320;

/// How many operations a list has at most, which says nothing of its pieces.
const OPERATIONS: usize = 64;

#[derive(Clone, Copy, Debug, PartialEq, Eq, PartialOrd, Ord)]
pub enum Shown {
    /// It ended by this report in a later piece of an operation, which reads or does not.
    Ended {
        reads: bool,
        report: u32,
    },
    /// It went on after polls in which this flag was set where TCR is awaited inside an operation.
    Polled(u32),
    /// A list with long operations of both directions was done, the address having ten bits or not.
    Mixed {
        ten_bit: bool,
    },
    /// So many pieces were done: more than there may be operations, and the most that there are.
    OverOperations,
    MostPieces,
    /// An advance ended just before or just after the CR2 word of a later piece of an operation.
    Cut(Side),
}

/// The reports that can end a run in a later piece: `stopped` is of a read alone.
const REPORTS: [(bool, u32); 9] = [
    (false, 0),
    (false, 1),
    (false, 2),
    (false, 3),
    (true, 0),
    (true, 1),
    (true, 2),
    (true, 3),
    (true, 4),
];

impl Shown {
    pub fn all() -> Vec<Shown> {
        let ended = REPORTS.map(|(reads, report)| Shown::Ended { reads, report });
        let polled = [TC, STOPF].map(Shown::Polled);
        let mixed = [false, true].map(|ten_bit| Shown::Mixed { ten_bit });
        let many = [Shown::OverOperations, Shown::MostPieces];
        let cut = Side::ALL.map(Shown::Cut);
        [&ended[..], &polled, &mixed, &many, &cut].concat()
    }

    pub fn words(self) -> String {
        match self {
            Shown::Ended { reads, report } => {
                let direction = if reads { "read" } else { "write" };
                let word = WORDS[report as usize];
                format!("ended as {word} in a later piece of a {direction}")
            }
            Shown::Polled(flag) => {
                let name = if flag == TC { "TC" } else { "STOPF" };
                format!("{name} without TCR between the pieces of an operation, a poll")
            }
            Shown::Mixed { ten_bit } => {
                let bits = if ten_bit { "ten" } else { "seven" };
                format!("long operations of both directions done, at {bits} bits")
            }
            Shown::OverOperations => format!("done in more than {OPERATIONS} pieces"),
            Shown::MostPieces => format!("done in {MOST} pieces"),
            Shown::Cut(side) => {
                let side = side.words();
                format!("an advance ends {side} a later piece's CR2 word")
            }
        }
    }
}

/// The lengths around every multiple of 255 up to 65,535, each of which has to be written and to be
/// read.
pub fn lengths() -> impl Iterator<Item = u32> {
    let around = (1..=257).flat_map(|pieces| [255 * pieces - 1, 255 * pieces, 255 * pieces + 1]);
    around.filter(|&length| length <= 65_535)
}

/// What a run shows that came to this report and was cut so.
pub fn of(asked: &Asked, report: u32, log: &[Access], cuts: &[Side]) -> Vec<Shown> {
    if !pieces::has_long(asked) {
        return Vec::new();
    }
    let pieces = pieces::of(&asked.operations);
    let begun = log.iter().filter(|entry| is_control(entry)).count();
    let mut shown = polled(&pieces, log);
    shown.extend(cuts.iter().copied().map(Shown::Cut));
    let Some(last) = begun.checked_sub(1).and_then(|last| pieces.get(last)) else {
        return shown;
    };
    if last.later && report < WAITING {
        let reads = last.reads;
        shown.push(Shown::Ended { reads, report });
    }
    if report == 0 {
        let reads = |reads| move |piece: &Piece| piece.later && piece.reads == reads;
        let ten_bit = asked.ten_bit;
        if [false, true]
            .map(reads)
            .into_iter()
            .all(|it| pieces.iter().any(it))
        {
            shown.push(Shown::Mixed { ten_bit });
        }
        shown.extend((pieces.len() > OPERATIONS).then_some(Shown::OverOperations));
        shown.extend((pieces.len() == MOST).then_some(Shown::MostPieces));
    }
    shown
}

/// The flags that were set in vain where the next piece of the operation is awaited, and after
/// which it came.
fn polled(pieces: &[Piece], log: &[Access]) -> Vec<Shown> {
    let mut shown = Vec::new();
    let mut next = pieces.iter();
    let mut polls = 0;
    for entry in log {
        match entry {
            [ISR, word] if word & TCR == 0 => polls |= word,
            [ISR, _] => {}
            _ if is_control(entry) => {
                if next.next().is_some_and(|piece| piece.later) {
                    let flags = [TC, STOPF].into_iter().filter(|flag| polls & flag != 0);
                    shown.extend(flags.map(Shown::Polled));
                }
                polls = 0;
            }
            // It was read before a byte, a start or an error.
            _ => polls = 0,
        }
    }
    shown
}

#[cfg(test)]
mod tests {
    use super::*;
    use crate::calls::build::{transaction, READ};
    use crate::calls::case::Case;
    use crate::calls::run::Run;
    use crate::calls::tally::place;

    fn shown(case: &Case) -> Vec<Shown> {
        let run = Run::of(case);
        of(&case.asked, place(run.word) as u32, &run.log, &[])
    }

    const ENDED: Shown = Shown::Ended {
        reads: false,
        report: 0,
    };

    #[test]
    fn ends_in_a_later_piece() {
        let through = |list: &[u32]| transaction(list).zeros(pieces::sum(list)).goes_through();
        assert_eq!(shown(&through(&[255, 1])), []);
        assert_eq!(shown(&through(&[256])), [ENDED]);
        assert_eq!(shown(&through(&[256, 0])), []);
        let read = Shown::Ended {
            reads: true,
            report: 0,
        };
        let ten_bit = |ten_bit| Shown::Mixed { ten_bit };
        let mixed = [256, READ | 257];
        assert_eq!(shown(&through(&mixed)), [read, ten_bit(false)]);
        assert_eq!(shown(&through(&mixed).ten_bit(5)), [read, ten_bit(true)]);
        let left = |answers, word| {
            let mut case = through(&[256]);
            case.answers.truncate(answers);
            shown(&case.answers(&[word, STOPF]))
        };
        assert_eq!(left(2 + 255, BERR), []);
        let bus = Shown::Ended {
            reads: false,
            report: 1,
        };
        assert_eq!(left(2 + 255 + 1, BERR), [bus]);
    }

    #[test]
    fn polls_with_another_flag() {
        let polled = |words: &[u32]| {
            let case = transaction(&[256]).zeros(256).answers(&[TXE, 0]);
            shown(&case.asks_for(255).answers(words))
        };
        assert_eq!(polled(&[TC, STOPF]), []);
        assert_eq!(polled(&[TC, TCR]), [Shown::Polled(TC)]);
        assert_eq!(polled(&[STOPF, TCR]), [Shown::Polled(STOPF)]);
        assert_eq!(polled(&[TXE, TCR]), []);
        assert_eq!(polled(&[TC | TCR]), []);
    }

    #[test]
    fn many_pieces() {
        let mut list = [0; 64];
        let of = |list: &[u32]| shown(&transaction(list).zeros(pieces::sum(list)).goes_through());
        list[3] = 255 * 2;
        assert_eq!(of(&list), [Shown::OverOperations]);
        list[3] = 65_535;
        assert_eq!(of(&list), [Shown::OverOperations, Shown::MostPieces]);
        assert_eq!(of(&[65_535]), [ENDED, Shown::OverOperations]);
    }

    #[test]
    fn the_lengths_are_those_around_each_multiple() {
        assert_eq!(lengths().count(), 770);
        assert_eq!(lengths().last(), Some(65_535));
    }
}
