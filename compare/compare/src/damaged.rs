//! `compare damaged`: random and damaged bytes through every function of the boundary.
//!
//! Each slice is lent so that a touched byte before or after it is seen: at a page that cannot be
//! touched, or, for a tool that watches the heap, as an allocation of its own. Of every call it is
//! held that it gives something document 01 allows for what was lent, and that a refusal changes
//! nothing.

mod bands;
mod bytes;
mod memory;
mod pages;

use std::time::{Duration, Instant};

use oracle::Fields;

use crate::calls::known::MANUAL_WRITES;
use crate::random::Random;
use crate::rattle::{
    self, saved, Advanced, Left, Next, ENTRY, FULL, NONE_REFUSED, REFUSED, SAVED, STEPS, WAITING,
};
use bands::{Bands, Timings};
use bytes::Bytes;
use memory::Memory;
use pages::{Page, Pages};

/// A real run is left for another after so many calls, ended or not.
const CALLS: u64 = 100;

const EVERY: Duration = Duration::from_secs(5);

/// What an advance is refused by.
const REFUSALS: [u32; 5] = [8, 10, 11, 12, 13];

/// The most that one of the slices may have.
const MOST: usize = 80_000;

pub enum Limit {
    Calls(u64),
    Seconds(u64),
}

/// Makes calls. True if all went well; a touched guard ends the program.
pub fn compare(limit: Limit, seed: u64, heap: bool) -> bool {
    println!("damaged: from seed {seed}");
    memory::tell_faults();
    let mut boundary = Boundary::new(heap);
    let mut random = Random::new(seed);
    let start = Instant::now();
    let mut told = start;
    let goes_on = |calls| match limit {
        Limit::Calls(most) => calls < most,
        Limit::Seconds(seconds) => start.elapsed().as_secs() < seconds,
    };
    while goes_on(boundary.calls) {
        if told.elapsed() >= EVERY {
            told = Instant::now();
            eprintln!("damaged: {} calls", boundary.calls);
        }
        let mut real = Bytes::begun(&mut random);
        for _ in 0..CALLS {
            if let Err(wrong) = boundary.call(&mut real, &mut random) {
                println!("damaged: {wrong}");
                return false;
            }
        }
    }
    boundary.print();
    boundary.calls < 100_000 || boundary.all_reached()
}

/// The memory that is lent, and what came of it.
struct Boundary {
    /// For numbers: the description or the fields of a timing, and where one is left.
    numbers: Memory,
    left: Memory,
    operations: Memory,
    saved: Memory,
    buffer: Memory,
    answers: Memory,
    log: Memory,
    page: Memory,
    bands: Memory,
    calls: u64,
    /// Advances by their reports, and refused ones by their numbers.
    reports: [u64; FULL as usize + 1],
    refusals: [u64; 14],
    pages: Pages,
    timings: Timings,
}

impl Boundary {
    fn new(heap: bool) -> Self {
        let memory = || match heap {
            true => Memory::heap(),
            false => Memory::guarded(MOST),
        };
        Boundary {
            numbers: memory(),
            left: memory(),
            operations: memory(),
            saved: memory(),
            buffer: memory(),
            answers: memory(),
            log: memory(),
            page: memory(),
            bands: memory(),
            calls: 0,
            reports: [0; FULL as usize + 1],
            refusals: [0; 14],
            pages: Pages::default(),
            timings: Timings::default(),
        }
    }

    fn print(&self) {
        println!("damaged: advances by report: {:?}", self.reports);
        println!("damaged: refused ones by number: {:?}", self.refusals);
        println!("damaged: {:?}", self.pages);
        println!("damaged: by bands {:?}", self.timings);
        println!("damaged: {} calls, all as they should be", self.calls);
    }

    fn all_reached(&self) -> bool {
        let all = self.reports.iter().all(|&count| count > 0)
            && REFUSALS.iter().all(|&it| self.refusals[it as usize] > 0)
            && self.pages.all_reached()
            && self.timings.all_reached();
        if !all {
            println!("damaged: a report, a refusal, a kind of page or of bands was not reached");
        }
        all
    }

    /// Makes a call or two on a real run, mostly with something damaged.
    fn call(&mut self, real: &mut Bytes, random: &mut Random) -> Result<(), String> {
        let turn = random.up_to(9);
        match turn {
            2 => return self.page(random),
            3 => return self.bands(random),
            _ => {}
        }
        let mut lent = real.lent(random);
        let damaged = random.up_to(3) != 0;
        if damaged {
            lent.damage(random);
        }
        match turn {
            0 => self.begin(&lent, random),
            1 => self.timing(random),
            _ => self.advance(&lent, random).map(|(given, after)| {
                if !damaged {
                    real.go_on(after, given.used);
                }
            }),
        }
        .map_err(|wrong| format!("call {}: {wrong}\n{lent:X?}", self.calls))
    }

    fn count(&mut self) {
        self.calls += 1;
        memory::note(self.calls);
    }

    /// Any numbers, with the same answers wherever they are lent.
    fn timing(&mut self, random: &mut Random) -> Result<(), String> {
        self.count();
        let (clock, frequency) = (random.of_length(32), random.of_length(32));
        let timingr = self.left.lend_numbers(random.word(), to_end(random));
        let refusal = rattle::timing_into(clock, frequency, timingr);
        let given = rattle::answer(refusal, *timingr);
        held("a timing", given == rattle::timing(clock, frequency))?;

        self.count();
        let [presc, scldel, sdadel, sclh] = random.word().to_le_bytes();
        let fields = Fields {
            presc,
            scldel: scldel & 15,
            sdadel: sdadel & 31,
            sclh,
            scll: random.word() as u8,
        };
        let lent = self.numbers.lend_numbers(fields, to_end(random));
        let timingr = self.left.lend_numbers(random.word(), to_end(random));
        let refusal = rattle::pack_into(lent, timingr);
        held("what was packed", *lent == fields)?;
        let given = rattle::answer(refusal, *timingr);
        held("a packed word", given == rattle::pack(fields))?;

        self.count();
        let word = random.word();
        let fields = self.left.lend_numbers(fields, to_end(random));
        rattle::unpack_into(word, fields);
        held("unpacked fields", *fields == rattle::unpack(word))
    }

    /// The page of a log, damaged or not. What the lines say is `compare page`'s to look at.
    fn page(&mut self, random: &mut Random) -> Result<(), String> {
        self.count();
        let lent = Page::any(random);
        let log = self.log.lend(&lent.log, to_end(random));
        let page = self.page.lend(&lent.page, to_end(random));
        let length = self.left.lend_numbers(u64::MAX, to_end(random));
        let number = rattle::page(log, page, length);
        kept("the log of a page", log, &lent.log)
            .and_then(|()| lent.hold(number, *length, page, &mut self.pages))
            .map_err(|wrong| format!("call {}: {wrong}\n{lent:X?}", self.calls))
    }

    /// Both functions of a table of speed bands, damaged or not.
    fn bands(&mut self, random: &mut Random) -> Result<(), String> {
        self.count();
        let lent = Bands::any(random);
        let table = self.bands.lend(&lent.table, to_end(random));
        let loaded = rattle::load_bands(table);
        let mut held = kept("a table that is loaded", table, &lent.table)
            .and_then(|()| lent.hold_loaded(loaded));

        self.count();
        let table = self.bands.lend(&lent.table, to_end(random));
        let timingr = self.left.lend_numbers(random.word(), to_end(random));
        let number = rattle::timing_by_bands_into(table, lent.clock, lent.frequency, timingr);
        held = held
            .and_then(|()| kept("the table of a timing", table, &lent.table))
            .and_then(|()| lent.hold_timing(number, *timingr, &mut self.timings));
        held.map_err(|wrong| format!("call {}: {wrong}\n{lent:X?}", self.calls))
    }

    fn begin(&mut self, lent: &Bytes, random: &mut Random) -> Result<(), String> {
        self.count();
        let operations = self.operations.lend(&lent.operations, to_end(random));
        let buffer = self.buffer.lend(&lent.buffer, to_end(random));
        let saved = self.saved.lend(&lent.saved, to_end(random));
        let description = self.numbers.lend_numbers(lent.description, to_end(random));
        let given = rattle::begin(description, operations, buffer, saved);
        held("the description", *description == lent.description)?;
        kept("the operations", operations, &lent.operations)?;
        kept("the buffer", buffer, &lent.buffer)?;
        let length = (saved.len() != SAVED).then_some(13);
        let refusal = lent.refusal().or(length).unwrap_or(0);
        held("begin's number", given == refusal)?;
        if saved.len() != SAVED {
            return kept("the saved call", saved, &lent.saved);
        }
        let mut expected = [0; SAVED];
        if given == 0 {
            expected[..4].copy_from_slice(&lent.description.call.to_le_bytes());
            expected[4 * saved::STEP] = saved[4 * saved::STEP];
            held("the step", u32::from(saved[4 * saved::STEP]) < STEPS)?;
        }
        kept("the begun call", saved, &expected)
    }

    /// Asks for the next access, then advances: both are of one mind. Gives what is left after.
    fn advance(&mut self, lent: &Bytes, random: &mut Random) -> Result<(Advanced, Bytes), String> {
        self.count();
        let operations = self.operations.lend(&lent.operations, to_end(random));
        let buffer = self.buffer.lend(&lent.buffer, to_end(random));
        let saved = self.saved.lend(&lent.saved, to_end(random));
        let description = self.numbers.lend_numbers(lent.description, to_end(random));
        let value = self.left.lend_numbers(random.word(), to_end(random));
        let kind = rattle::next_into(description, operations, saved, buffer, value);
        let next = Next {
            kind,
            value: *value,
        };
        kept("the saved call", saved, &lent.saved)?;
        kept("the buffer", buffer, &lent.buffer)?;

        self.calls += 1;
        memory::note(self.calls);
        let answers = self.answers.lend(&lent.answers, to_end(random));
        let log = self.log.lend(&lent.log, to_end(random));
        let left = self.left.lend_numbers(Left::UNWRITTEN, to_end(random));
        let report =
            rattle::advance_into(description, operations, saved, buffer, answers, log, left);
        let given = left.reported(report);
        held("the description", *description == lent.description)?;
        kept("the operations", operations, &lent.operations)?;
        kept("the answers", answers, &lent.answers)?;
        let after = Bytes {
            description: lent.description,
            saved: saved.to_vec(),
            buffer: buffer.to_vec(),
            log: log.to_vec(),
            ..Default::default()
        };
        held("the report", given.report <= FULL)?;
        self.reports[given.report as usize] += 1;
        if given.report == REFUSED {
            held("a refusal's number", REFUSALS.contains(&given.value))?;
            self.refusals[given.value as usize] += 1;
        }
        lent.hold_next(next, given)?;
        lent.hold_refusal(given, &after)?;
        lent.hold_progress(given, &after, next)?;
        if given.report != REFUSED {
            let again = rattle::next(description, operations, saved, buffer);
            held("the call after is taken", again.kind != NONE_REFUSED)?;
        }
        Ok((given, after))
    }
}

fn to_end(random: &mut Random) -> bool {
    random.up_to(1) == 0
}

/// Bytes cut somewhere for kind 1, with a bit changed for 2 and 3, left for any other.
fn spoil(bytes: &mut Vec<u8>, kind: u32, random: &mut Random) {
    match kind {
        1 => {
            let length = random.up_to(bytes.len() as u32);
            bytes.truncate(length as usize);
        }
        2 | 3 if !bytes.is_empty() => {
            let place = random.up_to(bytes.len() as u32 - 1) as usize;
            bytes[place] ^= 1 << random.up_to(7);
        }
        _ => {}
    }
}

fn held(what: &str, holds: bool) -> Result<(), String> {
    if holds {
        Ok(())
    } else {
        Err(format!("{what} is wrong"))
    }
}

fn kept(what: &str, given: &[u8], expected: &[u8]) -> Result<(), String> {
    held(what, given == expected)
}

impl Bytes {
    /// The refusal that is certain: of the description, or of bytes that are no saved call of this
    /// call, or one at a piece that it does not have or with more bytes put out than it counts.
    fn any_refusal(&self) -> Option<u32> {
        self.refusal().or_else(|| (!self.is_saved()).then_some(13))
    }

    fn is_saved(&self) -> bool {
        if self.saved.len() != SAVED {
            return false;
        }
        let word = |number| rattle::word(&self.saved, number);
        let outcome = match word(saved::OUTCOME) {
            0 | 7 | 8 => true,
            outcome => outcome <= 9 && word(saved::VALUE) == 0,
        };
        let ended = word(saved::STEP) == 0;
        let there = (word(saved::PIECE) as usize) < self.pieces().max(1);
        let reached = ended || there && self.is_counted(word(saved::OUT));
        let listed = word(saved::STEP) < STEPS;
        outcome && reached && listed && word(saved::CALL) == self.description.call
    }

    /// Whether a call that has not ended may have put so many bytes out: a manual write counts up to
    /// its buffer's length + 1 (document 02, R-6), and no other call looks at the number.
    fn is_counted(&self, out: u32) -> bool {
        let counts = MANUAL_WRITES.contains(&self.description.call);
        !counts || out as usize <= self.buffer.len() + 1
    }

    fn hold_refusal(&self, given: Advanced, after: &Bytes) -> Result<(), String> {
        if let Some(refusal) = self.any_refusal() {
            let right = given.report == REFUSED && given.value == refusal;
            held(&format!("refusal {refusal}"), right)?;
        }
        if given.report != REFUSED {
            return Ok(());
        }
        let Advanced {
            awaited,
            used,
            written,
            ..
        } = given;
        held("a refusal's counts", (awaited, used, written) == (0, 0, 0))?;
        kept("the saved call of a refusal", &after.saved, &self.saved)?;
        kept("the buffer of a refusal", &after.buffer, &self.buffer)?;
        kept("the log of a refusal", &after.log, &self.log)
    }

    /// The next access is the first that the advance made, or what it lacked.
    fn hold_next(&self, next: Next, given: Advanced) -> Result<(), String> {
        let Next { kind, value } = next;
        let reads = given.report == WAITING && given.awaited == value;
        let right = match kind {
            rattle::OVER => value == 0 && given.report < WAITING && given.written == 0,
            rattle::READ => given.written > 0 || given.report == FULL || reads,
            rattle::WRITE => given.written > 0 || given.report == FULL,
            NONE_REFUSED => given.report == REFUSED && given.value == value,
            _ => false,
        };
        held("the next access", right)
    }

    /// What an advance used and wrote lies within what it was lent, and agrees with its report.
    fn hold_progress(&self, given: Advanced, after: &Bytes, next: Next) -> Result<(), String> {
        if given.report == REFUSED {
            return Ok(());
        }
        let answers = self.answers.len() / 4;
        let places = self.log.len() / ENTRY;
        held("the count of answers", given.used <= answers)?;
        held("the count of entries", given.written <= places)?;
        held("full", given.report != FULL || given.written == places)?;
        held("waiting", given.report != WAITING || given.used == answers)?;
        held(
            "what is awaited",
            given.report == WAITING || given.awaited == 0,
        )?;
        let written = given.written * ENTRY;
        kept(
            "the rest of the log",
            &after.log[written..],
            &self.log[written..],
        )?;
        let first = after.hold_entries(given, &self.answers)?;
        let code = match next.kind {
            rattle::WRITE => next.value + 0x100,
            _ => next.value,
        };
        held("the first entry", first.is_none_or(|first| first == code))?;
        self.hold_saved(given, after)
    }

    fn hold_saved(&self, given: Advanced, after: &Bytes) -> Result<(), String> {
        let before = |number| rattle::word(&self.saved, number);
        let now = |number| rattle::word(&after.saved, number);
        let accesses = before(saved::ACCESSES).saturating_add(given.written as u32);
        held("the count of accesses", now(saved::ACCESSES) == accesses)?;
        held("the call's number", now(saved::CALL) == before(saved::CALL))?;
        let over = given.report < WAITING;
        let outcome = (now(saved::OUTCOME), now(saved::VALUE)) == (given.report, given.value);
        held("the outcome", !over || outcome && now(saved::STEP) == 0)?;
        held("the end", over || now(saved::STEP) != 0)?;
        held(
            "the bytes put out",
            over || self.is_counted(now(saved::OUT)),
        )?;
        let same = self.buffer.iter().zip(&after.buffer);
        let changed = same.filter(|(before, after)| before != after).count();
        let received = after.codes(given.written).filter(|&code| code == 0x24);
        held("the buffer", changed <= received.count())
    }

    fn codes(&self, entries: usize) -> impl Iterator<Item = u32> + '_ {
        (0..entries).map(|entry| rattle::word(&self.log, 2 * entry))
    }

    /// Each entry is of a register, and reads have the answers in order. Gives the first's code.
    fn hold_entries(&self, given: Advanced, answers: &[u8]) -> Result<Option<u32>, String> {
        const REGISTERS: [u32; 9] = [0x00, 0x04, 0x08, 0x0C, 0x10, 0x18, 0x1C, 0x24, 0x28];
        let mut used = 0;
        for (entry, code) in self.codes(given.written).enumerate() {
            held("an entry", REGISTERS.contains(&(code & !0x100)))?;
            if code < 0x100 {
                let answer = (used < given.used).then(|| rattle::word(answers, used));
                let value = rattle::word(&self.log, 2 * entry + 1);
                held("a read's value", answer == Some(value))?;
                used += 1;
            }
        }
        held("the count of reads", used == given.used)?;
        Ok(self.codes(given.written).next())
    }

    /// Goes on after an advance.
    fn go_on(&mut self, after: Bytes, used: usize) {
        self.saved = after.saved;
        self.buffer = after.buffer;
        self.answers.drain(..4 * used);
    }
}

#[cfg(test)]
mod tests {
    use super::*;

    #[test]
    fn bands_are_lent_at_guards() {
        for heap in [false, true] {
            let mut boundary = Boundary::new(heap);
            let mut random = Random::new(1);
            for _ in 0..2_000 {
                assert_eq!(boundary.bands(&mut random), Ok(()));
            }
            assert!(boundary.timings.all_reached(), "{:?}", boundary.timings);
        }
    }

    #[test]
    fn pages_are_laid_out_at_guards() {
        for heap in [false, true] {
            let mut boundary = Boundary::new(heap);
            let mut random = Random::new(1);
            for _ in 0..2_000 {
                assert_eq!(boundary.page(&mut random), Ok(()));
            }
            assert!(boundary.pages.all_reached(), "{:?}", boundary.pages);
        }
    }
}
