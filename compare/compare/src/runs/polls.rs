//! The waits in which a run polled for long, read off its log.

use oracle::{Access, Asked};

use crate::calls::chip::*;
use crate::calls::pieces::{self, Piece};

/// So many reads without anything else between them are a long poll. Each poll of a start wait has
/// two.
pub const LONG: usize = 4_000;

/// What is waited for.
#[derive(Clone, Copy, Debug, PartialEq, Eq, PartialOrd, Ord)]
pub enum Wait {
    Disabled,
    Start,
    ByteOut,
    ByteIn,
    Complete,
    Reload,
    ReloadInside,
    Stop,
    StopAfterError,
    Event,
    Zero,
}

impl Wait {
    pub fn words(self) -> &'static str {
        match self {
            Wait::Disabled => "PE is 0",
            Wait::Start => "start",
            Wait::ByteOut => "byte out",
            Wait::ByteIn => "byte in",
            Wait::Complete => "TC",
            Wait::Reload => "TCR",
            Wait::ReloadInside => "TCR inside an operation",
            Wait::Stop => "STOPF",
            Wait::StopAfterError => "STOPF after an error",
            Wait::Event => "event",
            Wait::Zero => "filling zero",
        }
    }
}

/// Every wait of every call.
pub const WAITS: [(u32, Wait); 29] = [
    (6, Wait::Disabled),
    (7, Wait::Start),
    (7, Wait::ByteOut),
    (7, Wait::ByteIn),
    (7, Wait::Complete),
    (7, Wait::Reload),
    (7, Wait::ReloadInside),
    (7, Wait::Stop),
    (7, Wait::StopAfterError),
    (8, Wait::Event),
    (9, Wait::ByteIn),
    (10, Wait::ByteOut),
    (10, Wait::Zero),
    (11, Wait::Event),
    (11, Wait::ByteIn),
    (12, Wait::Event),
    (12, Wait::ByteOut),
    (12, Wait::Zero),
    (13, Wait::Event),
    (24, Wait::Event),
    (25, Wait::ByteIn),
    (26, Wait::ByteOut),
    (26, Wait::Zero),
    (27, Wait::Event),
    (27, Wait::ByteIn),
    (28, Wait::Event),
    (28, Wait::ByteOut),
    (28, Wait::Zero),
    (29, Wait::Event),
];

/// The waits of this run that were long polls.
pub fn long(asked: &Asked, length: usize, log: &[Access]) -> Vec<Wait> {
    let mut waits = Vec::new();
    if log.len() < LONG {
        return waits;
    }
    let pieces = match asked.call {
        7 => pieces::of(&asked.operations),
        _ => Vec::new(),
    };
    let mut place = Place::new(asked, length, &pieces);
    let mut polls = 0;
    for &access in log {
        polls = if place.is_poll(access) { polls + 1 } else { 0 };
        if polls == LONG {
            waits.push(place.wait());
        }
    }
    waits
}

/// How far a run has come.
struct Place<'a> {
    call: u32,
    /// The pieces of a transaction that are still to begin.
    pieces: &'a [Piece],
    /// The bytes that are still to be moved, of a transaction those of its piece.
    left: usize,
    receives: bool,
    /// Neither a start nor an event has come yet.
    before: bool,
    failed: bool,
}

impl<'a> Place<'a> {
    fn new(asked: &Asked, length: usize, pieces: &'a [Piece]) -> Self {
        Place {
            call: asked.call,
            pieces,
            left: length,
            receives: matches!(asked.call, 9 | 11 | 25 | 27),
            before: matches!(asked.call, 8 | 11..=13 | 24 | 27..=29),
            failed: false,
        }
    }

    fn wait(&self) -> Wait {
        match self.call {
            6 => Wait::Disabled,
            7 if self.failed => Wait::StopAfterError,
            7 if self.before => Wait::Start,
            _ if self.before => Wait::Event,
            _ if self.left > 0 && self.receives => Wait::ByteIn,
            _ if self.left > 0 => Wait::ByteOut,
            7 => match self.pieces.first() {
                Some(next) if next.later => Wait::ReloadInside,
                Some(next) if next.reads == self.receives => Wait::Reload,
                Some(_) => Wait::Complete,
                None => Wait::Stop,
            },
            _ => Wait::Zero,
        }
    }

    /// Goes on by an access. True if it is a poll of the wait that the run is in.
    fn is_poll(&mut self, access: Access) -> bool {
        let [code, word] = access;
        match (self.call, code) {
            (6, code) => code == CR1,
            (7, CR2) => {
                self.before = word & START != 0;
                self.before
            }
            (_, ISR) => {
                let stops = word & RXNE == 0 && word & (STOPF | ADDR) != 0;
                self.failed |= stops && self.wait() == Wait::ByteIn;
                !self.failed || !stops
            }
            _ => {
                self.go_on(access);
                false
            }
        }
    }

    /// Goes on by an access that is no poll.
    fn go_on(&mut self, [code, word]: Access) {
        const SENT: u32 = WRITTEN + TXDR;
        const CONTROLLED: u32 = WRITTEN + CR2;
        const CLEARED: u32 = WRITTEN + ICR;
        match (self.call, code) {
            (7, CONTROLLED) => self.begin_piece(),
            (7, CLEARED) => self.failed |= word & STOPF == 0,
            (_, RXDR | SENT) => self.left = self.left.saturating_sub(1),
            // Whatever a target does after a status word, its event has come.
            _ => self.before = false,
        }
    }

    fn begin_piece(&mut self) {
        if let [first, rest @ ..] = self.pieces {
            self.left = first.size;
            self.receives = first.reads;
            self.pieces = rest;
        }
        self.before = true;
    }
}

#[cfg(test)]
mod tests {
    use super::*;
    use crate::calls::build::{call, transaction, MANUAL, MATCH, READ};
    use crate::calls::case::Case;
    use crate::calls::run::Run;

    fn waits(case: &Case) -> Vec<Wait> {
        long(&case.asked, case.buffer.len(), &Run::of(case).log)
    }

    /// The call with idle words after its answers.
    fn idle(case: Case, words: &[u32]) -> Case {
        case.answers(&words.repeat(LONG / words.len()))
    }

    #[test]
    fn waits_of_a_transaction() {
        let begun = |list| transaction(list).zeros(1).answers(&[TXE, 0]);
        let shown = |case, words: &[u32]| waits(&idle(case, words));
        assert_eq!(
            shown(transaction(&[1]).zeros(1), &[TXE, START]),
            [Wait::Start]
        );
        assert_eq!(shown(begun(&[1]), &[TXE]), [Wait::ByteOut]);
        assert_eq!(shown(begun(&[READ | 1]), &[TXE]), [Wait::ByteIn]);
        let moved = |list| begun(list).answers(&[TXIS]);
        assert_eq!(shown(moved(&[1, READ]), &[TXE]), [Wait::Complete]);
        assert_eq!(shown(moved(&[1, 0]), &[TXE]), [Wait::Reload]);
        assert_eq!(shown(moved(&[1]), &[TXE]), [Wait::Stop]);
        for error in [BERR, ARLO, NACKF] {
            let failed = begun(&[1]).answers(&[error]);
            assert_eq!(shown(failed, &[TXE]), [Wait::StopAfterError]);
        }
        let stopped = begun(&[READ | 1]).answers(&[STOPF]);
        assert_eq!(shown(stopped, &[TXE]), [Wait::StopAfterError]);
        let second = begun(&[1, READ]).answers(&[TXIS, TC]);
        assert_eq!(shown(second, &[TXE, START]), [Wait::Start]);
    }

    #[test]
    fn waits_of_a_long_operation() {
        let moved = |list: &[u32]| {
            let case = transaction(list).zeros(256).answers(&[TXE, 0]);
            waits(&idle(case.asks_for(255), &[TXE, TC]))
        };
        assert_eq!(moved(&[256]), [Wait::ReloadInside]);
        assert_eq!(moved(&[255, 1]), [Wait::Reload]);
        let second = transaction(&[256, 0]).zeros(256).goes_through();
        let wait = |answers| {
            let mut case = second.clone();
            case.answers.truncate(answers);
            waits(&idle(case, &[TXE]))
        };
        assert_eq!(wait(2 + 255), [Wait::ReloadInside]);
        assert_eq!(wait(2 + 255 + 1 + 2), [Wait::ByteOut]);
        assert_eq!(wait(2 + 255 + 1 + 2 + 1), [Wait::Reload]);
    }

    #[test]
    fn waits_of_a_target() {
        let shown = |case| waits(&idle(case, &[TXE]));
        assert_eq!(shown(call(8)), [Wait::Event]);
        assert_eq!(shown(call(29)), [Wait::Event]);
        assert_eq!(shown(call(9).zeros(1)), [Wait::ByteIn]);
        assert_eq!(shown(call(10).zeros(1)), [Wait::ByteOut]);
        assert_eq!(shown(call(10).zeros(1).asks_for(1)), [Wait::Zero]);
        let written = call(28).zeros(1).answers(&[MATCH | DIR]).answers(&MANUAL);
        assert_eq!(shown(written.clone().answers(&[0])), [Wait::ByteOut]);
        assert_eq!(shown(written.answers(&[0]).asks_for(1)), [Wait::Zero]);
        let both = idle(call(11).zeros(1), &[TXE]).answers(&[MATCH]);
        assert_eq!(shown(both), [Wait::Event, Wait::ByteIn]);
    }

    #[test]
    fn a_reset_and_what_is_not_long() {
        assert_eq!(waits(&idle(call(6), &[PE])), []);
        assert_eq!(waits(&idle(call(6).answers(&[0]), &[PE])), [Wait::Disabled]);
        let mut short = idle(call(8), &[TXE]);
        short.answers.pop();
        assert_eq!(waits(&short), []);
        let bytes = call(9).zeros(LONG).receives(LONG as u32).answers(&[0]);
        assert_eq!(waits(&bytes), []);
    }
}
