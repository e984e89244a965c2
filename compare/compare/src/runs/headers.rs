//! Events whose ADDCODE is that of a ten-bit header, 0x78 to 0x7B, or next to it: each of them with
//! each OAR1 word that tells something, and what a run shows of them, read off its log.

use std::fmt;
use std::iter;

use oracle::{explore, Access};

use super::cut::Side;
use super::progress::Stop;
use super::words;
use super::Comparison;
use crate::calls::build::call;
use crate::calls::case::Case;
use crate::calls::chip::*;
use crate::calls::tally::WORDS;
use crate::rattle::WAITING;

/// The calls that give the address of an event, and the others that wait for one.
const ADDRESSED: [u32; 2] = [8, 24];
const OTHERS: [u32; 6] = [11, 12, 13, 27, 28, 29];

/// The ADDCODEs of a header, and those next to them.
const HEADERS: [u32; 4] = [0x78, 0x79, 0x7A, 0x7B];
const BESIDE: [u32; 2] = [0x77, 0x7C];

/// The reports of an event that has an address.
const EVENTS: [u32; 2] = [7, 8];

/// In how many ways each call is cut.
const CUTS: usize = 8;

/// A status word that ends a transfer of either direction, with nothing to flush.
const END: u32 = NACKF | STOPF | TXE;

#[derive(Clone, Copy, Debug, PartialEq, Eq, PartialOrd, Ord)]
pub enum Header {
    /// A header came with this OA1MODE, and OA1 was another address than ADDCODE.
    Event {
        call: u32,
        report: u32,
        code: u32,
        oa1mode: bool,
    },
    /// OA1EN was not as OA1MODE there.
    Apart { call: u32, oa1mode: bool },
    /// OA1MODE being 0 there, an advance ended just before or just after the read of OAR1.
    Cut { call: u32, side: Side },
    /// An ADDCODE next to those of a header came, and OAR1 was not read.
    Beside { call: u32, code: u32 },
    /// A call that gives no address ended after a header, OA1MODE being 0.
    Through { call: u32 },
}

impl Header {
    pub fn all() -> Vec<Header> {
        let through = OTHERS.map(|call| Header::Through { call });
        let addressed = ADDRESSED.map(Header::of_addressed).concat();
        [&addressed[..], &through].concat()
    }

    fn of_addressed(call: u32) -> Vec<Header> {
        let mut all = Vec::new();
        for report in EVENTS {
            for code in HEADERS {
                all.extend([false, true].map(|oa1mode| Header::Event {
                    call,
                    report,
                    code,
                    oa1mode,
                }));
            }
        }
        all.extend([false, true].map(|oa1mode| Header::Apart { call, oa1mode }));
        all.extend(Side::ALL.map(|side| Header::Cut { call, side }));
        all.extend(BESIDE.map(|code| Header::Beside { call, code }));
        all
    }
}

impl fmt::Display for Header {
    fn fmt(&self, f: &mut fmt::Formatter) -> fmt::Result {
        match *self {
            Header::Event {
                call,
                report,
                code,
                oa1mode,
            } => {
                let (word, mode) = (WORDS[report as usize], u32::from(oa1mode));
                write!(f, "call {call}: {word}, ADDCODE {code:X}, OA1MODE {mode}")
            }
            Header::Apart { call, oa1mode } => {
                let (enabled, mode) = (u32::from(!oa1mode), u32::from(oa1mode));
                write!(f, "call {call}: a header, OA1EN {enabled}, OA1MODE {mode}")
            }
            Header::Cut { call, side } => {
                let side = side.words();
                write!(
                    f,
                    "call {call}: an advance ends {side} OAR1's word, OA1MODE 0"
                )
            }
            Header::Beside { call, code } => {
                write!(f, "call {call}: an event, ADDCODE {code:X}, OAR1 not read")
            }
            Header::Through { call } => write!(f, "call {call}: ended after a header, OA1MODE 0"),
        }
    }
}

/// What a run shows of them that came to this report and was cut so.
pub fn of(call: u32, report: u32, log: &[Access], cuts: &[Side]) -> Vec<Header> {
    if ADDRESSED.contains(&call) && EVENTS.contains(&report) {
        addressed(call, report, log, cuts)
    } else if OTHERS.contains(&call) && report < WAITING {
        let seven_bit = last_read(log, OAR1).is_some_and(|own| own & OA1MODE == 0);
        Vec::from_iter(seven_bit.then_some(Header::Through { call }))
    } else {
        Vec::new()
    }
}

fn addressed(call: u32, report: u32, log: &[Access], cuts: &[Side]) -> Vec<Header> {
    let code = last_read(log, ISR).map_or(0, addcode_of);
    let Some(own) = last_read(log, OAR1) else {
        let beside = BESIDE.contains(&code);
        return Vec::from_iter(beside.then_some(Header::Beside { call, code }));
    };
    if own & OA1 == code {
        // Whatever OA1MODE is, this is the address.
        return Vec::new();
    }
    let oa1mode = own & OA1MODE != 0;
    let mut shown = vec![Header::Event {
        call,
        report,
        code,
        oa1mode,
    }];
    if oa1mode != (own & OA1EN != 0) {
        shown.push(Header::Apart { call, oa1mode });
    }
    if !oa1mode {
        shown.extend(cuts.iter().map(|&side| Header::Cut { call, side }));
    }
    shown
}

/// Goes through all of these events.
pub fn all(comparison: &mut Comparison) -> Result<(), Stop> {
    comparison.progress.part = "headers".to_string();
    let cases = cases();
    for case in &cases {
        for _ in 0..CUTS {
            comparison.check(case.into(), true)?;
        }
    }
    println!(
        "runs: {} events with a header or next to one, {CUTS} times each",
        cases.len()
    );
    Ok(())
}

/// Every call that waits for an event, with each of them in either direction, with a byte to flush and
/// without.
fn cases() -> Vec<Case> {
    let mut cases = Vec::new();
    for number in [&ADDRESSED[..], &OTHERS].concat() {
        for code in [&HEADERS[..], &BESIDE].concat() {
            for flags in [0, TXE, DIR, DIR | TXE] {
                let status = ADDR | addcode(code) | flags;
                cases.extend(words::OWN.map(|own| meets(number, status, own)));
            }
        }
    }
    // Next to a header OAR1 is not read.
    cases.dedup();
    cases
}

/// A call that meets an event by this status word, and ends after it.
fn meets(number: u32, status: u32, own: u32) -> Case {
    let mut case = call(number).bytes(&[0x5A]);
    let description = case.asked.description(case.buffer.len());
    let description = description.expect("the driver can express it");
    let mut statuses = iter::once(status).chain(iter::repeat(END));
    let choose = move |register| match register {
        ISR => statuses.next(),
        OAR1 => Some(own),
        _ => Some(0),
    };
    case.answers = explore(&description, &mut case.buffer.clone(), choose);
    case
}

#[cfg(test)]
mod tests {
    use super::*;
    use crate::calls::run::Run;
    use crate::calls::tally::place;
    use std::collections::BTreeSet;

    fn shown(case: &Case, cuts: &[Side]) -> Vec<Header> {
        let run = Run::of(case);
        of(run.call, place(run.word) as u32, &run.log, cuts)
    }

    /// But for the cuts, which no uncut run shows.
    #[test]
    fn every_kind_is_among_the_cases() {
        let cases = cases();
        let all: BTreeSet<Header> = cases.iter().flat_map(|case| shown(case, &[])).collect();
        let is_cut = |header: &Header| matches!(header, Header::Cut { .. });
        let missing = Header::all().into_iter().filter(|it| !all.contains(it));
        assert!(missing.into_iter().all(|it| is_cut(&it)));
        let words: BTreeSet<&str> = cases.iter().map(|case| Run::of(case).word).collect();
        let ends = [
            "done",
            "event-read",
            "event-write",
            "expected-read",
            "expected-write",
        ];
        assert!(words.into_iter().eq(ends));
    }

    #[test]
    fn a_header_is_told_by_its_words() {
        let event = |report, oa1mode| Header::Event {
            call: 8,
            report,
            code: 0x78,
            oa1mode,
        };
        let apart = |oa1mode| Header::Apart { call: 8, oa1mode };
        let shown = |answers: &[u32]| shown(&call(8).answers(answers), &[]);
        assert_eq!(shown(&[0xF0_0009, 0x80F0]), [event(8, false), apart(false)]);
        assert_eq!(shown(&[0xF0_0009, 0x00F0]), [event(8, false)]);
        assert_eq!(shown(&[0xF1_0009, 0x0523]), [event(7, true), apart(true)]);
        assert_eq!(shown(&[0xF1_0009, 0x8523]), [event(7, true)]);
        assert_eq!(shown(&[0xF0_0009, 0x8078]), []);
        assert_eq!(shown(&[0xF0_0009]), []);
        let beside = |code| Header::Beside { call: 8, code };
        assert_eq!(shown(&[0xEE_0009]), [beside(0x77)]);
        assert_eq!(shown(&[0xF8_0009]), [beside(0x7C)]);
        assert_eq!(shown(&[0xEC_0009]), []);
    }

    #[test]
    fn cuts_count_with_oa1mode_0_where_an_address_is_given() {
        let both = Side::ALL;
        let cuts = |number, own| {
            let shown = shown(&meets(number, addcode(0x79) | ADDR, own), &both);
            let is_cut = |it: &&Header| matches!(it, Header::Cut { .. });
            shown.iter().filter(is_cut).count()
        };
        assert_eq!([cuts(8, 0), cuts(24, 0)], [2, 2]);
        assert_eq!([cuts(8, OA1MODE), cuts(24, OA1MODE)], [0, 0]);
        assert_eq!(cuts(29, 0), 0);
        let through = Header::Through { call: 29 };
        let other = |own| shown(&meets(29, addcode(0x79) | ADDR, own), &both);
        assert_eq!(other(0), [through]);
        assert_eq!(other(OA1MODE), []);
    }
}
