//! Kinds of run that have to occur, beside every call and outcome: long buffers that come to their
//! end, long operations, long polls, events by ten-bit headers, manual writes that meet a NACK, saved
//! calls at every piece and with every number of bytes put out, and what the Rust does with refused
//! calls and with lists that are not cut.

use std::collections::{BTreeMap, BTreeSet};
use std::fmt;

use oracle::Access;

use super::carried::Carried;
use super::check::{Ended, Input};
use super::headers::{self, Header};
use super::polls::{self, Wait, WAITS};
use super::shown::{self, Shown};
use super::totals::{self, Total};
use crate::calls::build::READ;
use crate::calls::chip::put_out;
use crate::calls::outside::Row;

/// The calls of a target that move bytes, and those of them that put bytes out.
pub const TRANSFERS: [u32; 8] = [9, 10, 11, 12, 25, 26, 27, 28];
pub const TRANSMISSIONS: [u32; 4] = [10, 12, 26, 28];

/// A buffer is long if it has more bytes than three blocks; and how many zeros are many.
const LONG: usize = 765;
const ZEROS: usize = 1_000;

#[derive(Clone, Copy, Debug, PartialEq, Eq, PartialOrd, Ord)]
pub enum Kind {
    /// A call moved all bytes of a long buffer and counted them.
    Full(u32),
    /// And it put out many zeros after them.
    Zeros(u32),
    Polled(u32, Wait),
    Shown(Shown),
    Header(Header),
    Total(Total),
    Saved(Saved),
    Carried(Carried),
    Row(Row),
}

/// Saved calls of a transaction whose piece or byte number was put there.
#[derive(Clone, Copy, Debug, PartialEq, Eq, PartialOrd, Ord)]
pub enum Saved {
    /// At its last piece, which is taken, and at the one after, which is refused.
    LastPiece,
    PastPiece,
    /// At the byte after the last of its piece and one more, and at the next, which is refused.
    LastByte,
    PastByte,
}

impl Saved {
    const ALL: [Saved; 4] = [
        Saved::LastPiece,
        Saved::PastPiece,
        Saved::LastByte,
        Saved::PastByte,
    ];

    fn words(self) -> &'static str {
        match self {
            Saved::LastPiece => "at the last piece, taken",
            Saved::PastPiece => "at the piece after the last, refused",
            Saved::LastByte => "at the piece's length + 1, taken",
            Saved::PastByte => "at the piece's length + 2, refused",
        }
    }
}

impl Kind {
    fn all() -> Vec<Kind> {
        let full = TRANSFERS.map(Kind::Full);
        let zeros = TRANSMISSIONS.map(Kind::Zeros);
        let polled = WAITS.map(|(call, wait)| Kind::Polled(call, wait));
        let shown: Vec<Kind> = Shown::all().into_iter().map(Kind::Shown).collect();
        let headers: Vec<Kind> = Header::all().into_iter().map(Kind::Header).collect();
        let totals: Vec<Kind> = Total::all().into_iter().map(Kind::Total).collect();
        let saved = Saved::ALL.map(Kind::Saved);
        let carried: Vec<Kind> = Carried::all().into_iter().map(Kind::Carried).collect();
        let rows = Row::ALL.map(Kind::Row);
        let transfers = [&full[..], &zeros, &polled, &shown, &headers, &totals].concat();
        [&transfers[..], &saved, &carried, &rows].concat()
    }
}

impl fmt::Display for Kind {
    fn fmt(&self, f: &mut fmt::Formatter) -> fmt::Result {
        match self {
            Kind::Full(call) => write!(f, "call {call}: full buffers over {LONG} bytes"),
            Kind::Zeros(call) => write!(f, "call {call}: such buffers and {ZEROS} zeros"),
            Kind::Polled(call, wait) => {
                write!(f, "call {call}: long polls for {}", wait.words())
            }
            Kind::Shown(shown) => write!(f, "call 7: {}", shown.words()),
            Kind::Header(header) => write!(f, "{header}"),
            Kind::Total(total) => write!(f, "{total}"),
            Kind::Saved(saved) => write!(f, "call 7: saved calls {}", saved.words()),
            Kind::Carried(carried) => write!(f, "{carried}"),
            Kind::Row(row) => write!(f, "rows of docs/DIFFERENCES.md, the Rust: {}", row.words()),
        }
    }
}

/// How often each kind of run occurred.
#[derive(Default)]
pub struct Kinds {
    counts: BTreeMap<Kind, u64>,
    /// The lengths of operations that were done, of writes and of reads.
    done: [BTreeSet<u32>; 2],
}

impl Kinds {
    /// Counts a run, of which this is the log.
    pub fn count(&mut self, input: Input, ended: &Ended, log: &[Access]) {
        let (call, length) = (input.asked.call, input.buffer.len());
        for &row in &ended.rows {
            self.add(Kind::Row(row));
        }
        for wait in polls::long(input.asked, length, log) {
            self.add(Kind::Polled(call, wait));
        }
        for shown in shown::of(input.asked, ended.report, log, &ended.cuts) {
            self.add(Kind::Shown(shown));
        }
        for header in headers::of(call, ended.report, log, &ended.cuts) {
            self.add(Kind::Header(header));
        }
        for total in totals::of(call, length, ended.report, log) {
            self.add(Kind::Total(total));
        }
        if call == 7 && ended.report == 0 {
            for word in &input.asked.operations {
                self.done[usize::from(word & READ != 0)].insert(word & 0xFFFF);
            }
        }
        let full = ended.report == 0 && ended.value as usize == length;
        if full && length > LONG && TRANSFERS.contains(&call) {
            self.add(Kind::Full(call));
            if put_out(log) >= length + ZEROS {
                self.add(Kind::Zeros(call));
            }
        }
    }

    pub fn add(&mut self, kind: Kind) {
        *self.counts.entry(kind).or_default() += 1;
    }

    /// The kinds that occurred.
    #[cfg(test)]
    pub fn kinds(self) -> impl Iterator<Item = Kind> {
        self.counts.into_keys()
    }

    fn occurred(&self, kind: Kind) -> u64 {
        self.counts.get(&kind).copied().unwrap_or_default()
    }

    pub fn print(&self) {
        for kind in Kind::all() {
            println!("{kind}: {}", self.occurred(kind));
        }
        for (name, done) in ["written", "read"].iter().zip(&self.done) {
            let around = shown::lengths().filter(|length| done.contains(length));
            let (reached, all) = (around.count(), shown::lengths().count());
            println!("call 7: lengths around a multiple of 255, {name}: {reached} of {all}");
        }
    }

    /// Whether every kind of run occurred, and every length.
    pub fn all_reached(&self) -> bool {
        self.missing().next().is_none() && self.missing_lengths().next().is_none()
    }

    pub fn print_missing(&self) {
        self.missing().for_each(|kind| println!("runs: no {kind}"));
        self.missing_lengths()
            .for_each(|length| println!("runs: no operation of {length} bytes in both directions"));
    }

    fn missing_lengths(&self) -> impl Iterator<Item = u32> + '_ {
        shown::lengths().filter(|length| !self.done.iter().all(|done| done.contains(length)))
    }

    fn missing(&self) -> impl Iterator<Item = Kind> + '_ {
        let kinds = Kind::all().into_iter();
        kinds.filter(|&kind| self.occurred(kind) == 0)
    }
}

#[cfg(test)]
mod tests {
    use super::*;
    use crate::calls::build::{call, counted, BOARD};
    use crate::calls::case::Case;
    use crate::runs::check::Checker;

    fn kinds(case: &Case) -> Vec<Kind> {
        let mut checker = Checker::default();
        let ended = checker.check(case.into(), None).unwrap();
        let mut kinds = Kinds::default();
        kinds.count(case.into(), &ended, checker.last().0);
        assert!(!kinds.all_reached());
        kinds.kinds().collect()
    }

    #[test]
    fn full_buffers_are_told_from_others() {
        let reads = |length: usize, bytes| call(9).zeros(length).receives(bytes).answers(&[0]);
        assert_eq!(kinds(&reads(765, 765)), []);
        assert_eq!(kinds(&reads(766, 766)), [Kind::Full(9)]);
        assert_eq!(kinds(&reads(766, 765).answers(&[0x20, 0])), []);
        let writes = |zeros: usize| call(10).bytes(&counted(766)).asks_for(766 + zeros).nacks();
        assert_eq!(kinds(&writes(0)), []);
        assert_eq!(kinds(&writes(1)), [Kind::Full(10)]);
        let zeros = writes(ZEROS);
        assert_eq!(kinds(&zeros), [Kind::Full(10), Kind::Zeros(10)]);
    }

    #[test]
    fn polls_and_refused_calls() {
        let polls = call(8).answers(&[0; polls::LONG]);
        assert_eq!(kinds(&polls), [Kind::Polled(8, Wait::Event)]);
        let row = Row::MaskAlone;
        assert_eq!(kinds(&row.example()), [Kind::Row(row)]);
    }

    #[test]
    fn events_with_a_header() {
        let event = Header::Event {
            call: 8,
            report: 8,
            code: 0x78,
            oa1mode: true,
        };
        let case = call(8).answers(&[BOARD, 0x8523]);
        assert_eq!(kinds(&case), [Kind::Header(event)]);
    }
}
