//! Row 13 by the bytes put out (document 02, R-6): saved calls of every call after each of its accesses,
//! as they are but for that number, and what comes of them. A manual write counts on from it, up to its
//! buffer's length + 1, and is refused beyond; no other call and none that has ended looks at it.

use std::fmt;

use super::check::{same, Input};
use super::kinds::{Kind, Kinds};
use super::progress::Stop;
use super::saved::MadeUp;
use super::words;
use super::Comparison;
use crate::calls::answers::Answers;
use crate::calls::build::{
    call, counted, manual_write, transaction, BOARD, MANUAL, MANUAL_WRITE, MATCH,
};
use crate::calls::case::Case;
use crate::calls::chip::*;
use crate::calls::generate;
use crate::calls::known::MANUAL_WRITES;
use crate::calls::run::Run;
use crate::calls::tally;
use crate::random::Random;
use crate::rattle::{self, saved, Advanced, ENTRY, SAVED};

/// The calls in which the number has to be shown to be of no account; all others are gone through too.
const ASIDE: [u32; 6] = [7, 9, 10, 12, 25, 27];

#[derive(Clone, Copy, Debug, PartialEq, Eq, PartialOrd, Ord)]
pub enum Carried {
    /// In this call the buffer's length + 1, which is taken, and one more, which is refused.
    Most(u32),
    Past(u32),
    /// The same while call 28 awaits its event.
    MostInEvent,
    PastInEvent,
    /// Another number than the run's, from which another total came.
    Total(u32),
    /// Over the length + 1 in a call that has ended, which is taken.
    Ended(u32),
    /// Any number in a call that does not count, which is taken.
    Aside(u32),
}

impl Carried {
    pub fn all() -> Vec<Carried> {
        let kinds = [Carried::Most, Carried::Past, Carried::Total, Carried::Ended];
        let counting = kinds.map(|kind| MANUAL_WRITES.map(kind)).concat();
        let in_event = [Carried::MostInEvent, Carried::PastInEvent];
        [&counting[..], &in_event, &ASIDE.map(Carried::Aside)].concat()
    }
}

impl fmt::Display for Carried {
    fn fmt(&self, f: &mut fmt::Formatter) -> fmt::Result {
        let (call, words) = match *self {
            Carried::Most(call) => (call, "the length + 1, taken"),
            Carried::Past(call) => (call, "the length + 2, refused"),
            Carried::MostInEvent => (28, "the length + 1 before its event, taken"),
            Carried::PastInEvent => (28, "the length + 2 before its event, refused"),
            Carried::Total(call) => (call, "another number, and its total"),
            Carried::Ended(call) => (call, "over the length + 1, ended and taken"),
            Carried::Aside(call) => (call, "another number, of no account"),
        };
        write!(f, "call {call}: saved calls with bytes put out: {words}")
    }
}

/// Goes through all of them.
pub fn all(comparison: &mut Comparison) -> Result<(), Stop> {
    comparison.progress.part = "saved calls with every number of bytes put out".to_string();
    let cases = cases();
    let mut tried = 0;
    for case in &cases {
        tried += Honest::of(case)
            .check(&mut comparison.kinds)
            .map_err(|told| Stop::difference(Input::from(case), told))?;
    }
    println!(
        "runs: {tried} saved calls with other numbers of bytes put out, of {} runs",
        cases.len()
    );
    Ok(())
}

/// Every call in small, gone through to its end; and manual writes that end in all ways.
fn cases() -> Vec<Case> {
    let mut cases: Vec<Case> = words::small().into_iter().map(gone_through).collect();
    let flush = [NACKF | TXIS, TXIS, 0];
    cases.push(
        transaction(&[2])
            .bytes(&counted(2))
            .answers(&[TXE, 0, TXIS])
            .answers(&flush)
            .answers(&[STOPF]),
    );
    for number in MANUAL_WRITES {
        for length in [1, 2, 256, 511] {
            for bytes in [0, 1, 255, 510, length, length + 2] {
                if bytes <= length + 2 {
                    let case = manual_write(number, length, bytes);
                    cases.push(case.clone().answers(&flush));
                    cases.push(case.nacks());
                }
            }
        }
        cases.push(manual_write(number, 256, 255).answers(&[BERR]));
        cases.push(manual_write(number, 256, 255));
    }
    // Events of call 28: after a flush, with a header, the wrong ones, and with no byte to put out.
    let event = |status: u32, answers: &[u32]| call(28).answers(&[status]).answers(answers);
    let header = [&MANUAL[..], &[0x80F0]].concat();
    cases.extend(
        [
            event(MATCH & !TXE | DIR, &MANUAL),
            event(BOARD & !TXE | DIR, &header),
            event(MATCH, &MANUAL_WRITE),
            event(STOPF, &[]),
            event(ARLO, &[]),
        ]
        .map(|case| case.bytes(&counted(3)).answers(&[0]).asks_for(2).nacks()),
    );
    cases.push(event(MATCH | DIR, &MANUAL));
    cases
}

fn gone_through(case: Case) -> Case {
    let (number, length) = (case.asked.call, case.buffer.len());
    let choices = Answers::to_the_end(number, length, Random::new(1)).moving(length + 2);
    let answers = generate::chosen(&case, choices);
    case.answers(&answers)
}

/// A call, and what it comes to.
struct Honest<'a> {
    call: MadeUp<'a>,
    run: Run,
    /// How many accesses a manual write makes before it begins to count.
    begins: usize,
}

/// A saved call of it, with the buffer by then.
#[derive(Clone)]
struct At {
    saved: [u8; SAVED],
    buffer: Vec<u8>,
    made: usize,
    used: usize,
}

impl<'a> Honest<'a> {
    fn of(case: &'a Case) -> Self {
        let run = Run::of(case);
        // Call 28 enters its transfer once ADDR is cleared.
        let event = || run.log.iter().position(|&it| it == [WRITTEN + ICR, ADDR]);
        let begins = match case.asked.call {
            28 => event().map_or(usize::MAX, |place| place + 1),
            _ => 0,
        };
        Honest {
            call: MadeUp::of(case),
            run,
            begins,
        }
    }

    /// Tries every number after every access, and gives how many were tried.
    fn check(&self, kinds: &mut Kinds) -> Result<u64, String> {
        let mut at = At {
            saved: self.call.begin(),
            buffer: self.call.case.buffer.clone(),
            made: 0,
            used: 0,
        };
        let mut tried = 0;
        loop {
            for out in self.numbers(&at) {
                let mut made_up = at.clone();
                rattle::put(&mut made_up.saved, saved::OUT, out);
                let kind = self.try_one(made_up, out).map_err(|told| {
                    let made = at.made;
                    format!("a saved call with {out} bytes put out after {made} accesses: {told}")
                })?;
                kind.into_iter().for_each(|it| kinds.add(Kind::Carried(it)));
                tried += 1;
            }
            if at.made == self.run.log.len() {
                return Ok(tried);
            }
            let mut log = [0; ENTRY];
            let answers = &self.call.case.answers[at.used..];
            let At { saved, buffer, .. } = &mut at;
            let given = self.call.advance(saved, buffer, answers, &mut log);
            same("an access more", 1, given.written)?;
            at.made += 1;
            at.used += given.used;
        }
    }

    /// Numbers around the run's own, the ends of blocks and the buffer's length, and far ones.
    fn numbers(&self, at: &At) -> Vec<u32> {
        let own = rattle::word(&at.saved, saved::OUT);
        let length = self.length() as u32;
        let mut numbers = vec![0, 1, 254, 255, 256, 65_537, 1 << 31, u32::MAX];
        for number in [own, length, length + 2] {
            numbers.extend(number.saturating_sub(1)..=number + 1);
        }
        numbers.sort();
        numbers.dedup();
        numbers
    }

    fn length(&self) -> usize {
        self.call.case.buffer.len()
    }

    fn is_over(&self, at: &At) -> bool {
        at.made == self.run.log.len() && self.run.word != "waiting"
    }

    /// Tries a saved call with this number, and gives what is counted of it.
    fn try_one(&self, at: At, out: u32) -> Result<Option<Carried>, String> {
        let call = self.run.call;
        let most = self.length() as u32 + 1;
        let own_total = self.run.value;
        if !MANUAL_WRITES.contains(&call) {
            self.goes_on(at, own_total)?;
            return Ok(Some(Carried::Aside(call)));
        }
        if self.is_over(&at) {
            self.goes_on(at, own_total)?;
            return Ok((out > most).then_some(Carried::Ended(call)));
        }
        let in_event = at.made < self.begins;
        if out > most {
            self.call.refused(at.saved)?;
            let past = match in_event {
                true => Carried::PastInEvent,
                false => Carried::Past(call),
            };
            return Ok((out == most + 1).then_some(past));
        }
        let total = match self.run.word {
            "done" if !in_event => self.total(at.made, out),
            _ => own_total,
        };
        self.goes_on(at, total)?;
        Ok(match in_event {
            true if out == most => Some(Carried::MostInEvent),
            false if out == most => Some(Carried::Most(call)),
            _ => (total != own_total).then_some(Carried::Total(call)),
        })
    }

    /// The total of a manual write that counts on from this number after so many accesses.
    fn total(&self, made: usize, out: u32) -> u32 {
        let log = &self.run.log;
        let rest = (made..log.len()).filter(|&place| puts_out(log, place));
        let put = (out as usize + rest.count()).min(self.length() + 1);
        put.saturating_sub(1) as u32
    }

    /// An advance makes the rest of the run, and ends with this total.
    fn goes_on(&self, mut at: At, total: u32) -> Result<(), String> {
        let Run {
            word, used, log, ..
        } = &self.run;
        let rest = &log[at.made..];
        let before = at.saved;
        let mut entries = vec![0; rest.len() * ENTRY + ENTRY];
        let answers = &self.call.case.answers[at.used..];
        let given = self
            .call
            .advance(&mut at.saved, &mut at.buffer, answers, &mut entries);
        let expected = Advanced {
            report: tally::place(word) as u32,
            value: total,
            awaited: given.awaited,
            used: used - at.used,
            written: rest.len(),
        };
        same("the advance", expected, given)?;
        let entries = &entries[..rest.len() * ENTRY];
        same(
            "the entries",
            true,
            rattle::bytes(rest.as_flattened()) == entries,
        )?;
        if rest.is_empty() {
            same("the saved call", before, at.saved)?;
        }
        same("the buffer", true, self.run.buffer == at.buffer)
    }
}

#[cfg(test)]
mod tests {
    use super::*;
    use std::collections::BTreeSet;

    fn shown(case: &Case) -> Result<BTreeSet<Kind>, String> {
        let mut kinds = Kinds::default();
        Honest::of(case).check(&mut kinds)?;
        Ok(kinds.kinds().collect())
    }

    #[test]
    fn every_kind_is_among_the_cases() {
        let all = cases().into_iter().flat_map(|case| shown(&case).unwrap());
        let all: BTreeSet<Kind> = all.collect();
        let mut kinds = Carried::all().into_iter().map(Kind::Carried);
        assert!(kinds.all(|kind| all.contains(&kind)));
    }

    /// The number is carried from before the NACK to the total.
    #[test]
    fn totals_of_other_numbers() {
        let case = manual_write(26, 511, 510).nacks();
        let honest = Honest::of(&case);
        let entries = honest.run.log.len();
        assert_eq!(honest.run.value, 509);
        assert_eq!(honest.total(entries - 1, 0), 0);
        assert_eq!(honest.total(entries - 1, 1), 0);
        assert_eq!(honest.total(entries - 1, 2), 1);
        assert_eq!(honest.total(entries - 1, 512), 511);
        assert_eq!(honest.total(3, 0), 509);
        assert_eq!(honest.total(3, 2), 511);
        assert_eq!(honest.total(3, 512), 511);
        // A flush is not counted, wherever the run is taken up.
        let case = manual_write(26, 2, 2).answers(&[NACKF, TXIS, TXE]);
        let honest = Honest::of(&case);
        let entries = honest.run.log.len();
        assert!((7..entries).all(|made| honest.total(made, 2) == 1));
    }

    #[test]
    fn a_total_that_is_not_carried_is_told() {
        let case = manual_write(28, 256, 255).nacks();
        let told = |change: fn(&mut Honest)| {
            let mut honest = Honest::of(&case);
            change(&mut honest);
            honest.check(&mut Kinds::default()).is_err()
        };
        assert!(!told(|_| {}));
        assert!(told(|honest| honest.begins = 0));
        assert!(told(|honest| honest.begins += 300));
        assert!(told(|honest| honest.run.value += 1));
        assert!(told(|honest| honest.run.log[300][1] ^= 1));
        assert!(told(|honest| honest.run.buffer[0] ^= 1));
        assert!(told(|honest| honest.run.call = 25));
    }
}
