//! Every sequence of answers up to a length: an answer is added wherever a run waits for one.

use oracle::Asked;

use super::check::{same, Input};
use super::progress::Stop;
use super::words;
use super::Comparison;
use crate::calls::case::Case;
use crate::rattle::{self, Advanced, Description, ENTRY, SAVED, WAITING};

/// One run in so many is cut at random too; each is also made by one answer at a time.
const CUT: u64 = 16;

/// Places for the accesses that one answer leads to.
const PLACES: usize = 8;

/// A run that waits, after all accesses that it can make.
#[derive(Clone)]
struct Waiting {
    saved: [u8; SAVED],
    buffer: Vec<u8>,
    /// All accesses so far.
    made: usize,
    awaited: u32,
}

pub struct Walk<'a> {
    comparison: &'a mut Comparison,
    asked: &'a Asked,
    description: Description,
    operations: &'a [u8],
    buffer: &'a [u8],
    answers: Vec<u32>,
    depth: usize,
    log: [u8; PLACES * ENTRY],
}

impl<'a> Walk<'a> {
    /// Goes through all sequences of this length, and gives their number.
    pub fn all(comparison: &'a mut Comparison, case: &'a Case, depth: usize) -> Result<u64, Stop> {
        let mut walk = Walk {
            comparison,
            asked: &case.asked,
            description: (&case.asked).into(),
            operations: rattle::bytes(&case.asked.operations),
            buffer: &case.buffer,
            answers: Vec::new(),
            depth,
            log: [0; PLACES * ENTRY],
        };
        let mut begun = Waiting {
            saved: [0; SAVED],
            buffer: case.buffer.clone(),
            made: 0,
            awaited: 0,
        };
        rattle::begin(
            &walk.description,
            walk.operations,
            walk.buffer,
            &mut begun.saved,
        );
        walk.from(&begun, &[])
    }

    /// Goes on after one answer more, or at first none.
    fn from(&mut self, before: &Waiting, answer: &[u32]) -> Result<u64, Stop> {
        let mut after = before.clone();
        let given = rattle::advance(
            &self.description,
            self.operations,
            &mut after.saved,
            &mut after.buffer,
            rattle::bytes(answer),
            &mut self.log,
        );
        after.made += given.written;
        after.awaited = given.awaited;
        if self.answers.len() == self.depth {
            self.compare(before, &after, given)?;
            return Ok(1);
        }
        let mut runs = 0;
        if given.report == WAITING {
            for word in words::of(given.awaited, &after.saved) {
                self.answers.push(word);
                runs += self.from(&after, &[word])?;
                self.answers.pop();
            }
        }
        Ok(runs)
    }

    /// Compares the run over all answers so far with the Rust's, and with what its last answer made.
    fn compare(&mut self, before: &Waiting, after: &Waiting, given: Advanced) -> Result<(), Stop> {
        let input = Input {
            asked: self.asked,
            buffer: self.buffer,
            answers: &self.answers,
        };
        let cuts = self.comparison.progress.runs.is_multiple_of(CUT);
        let ended = self.comparison.check(input, cuts)?;
        let (log, buffer) = self.comparison.checker.last();
        let last = log.get(before.made..).unwrap_or_default();
        let expected = (ended.report, ended.value, ended.awaited, last.len());
        let step = (given.report, given.value, given.awaited, given.written);
        let first = self.answers.last().map(|&answer| [before.awaited, answer]);
        let made = same("the last answer's advance", expected, step)
            .and_then(|()| {
                let entries = &self.log[..last.len() * ENTRY];
                same("its entries", rattle::bytes(last.as_flattened()), entries)
            })
            .and_then(|()| same("its first entry", first, first.and(last.first().copied())))
            .and_then(|()| same("its saved call", ended.saved, after.saved))
            .and_then(|()| same("its buffer", buffer, &after.buffer));
        made.map_err(|told| Stop::difference(input, told))
    }
}
