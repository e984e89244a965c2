//! Totals of manual writes that meet a NACK (document 02, R-6): between two blocks, next to it and
//! after filling zeros, each cut after every access around the NACK; and what a run shows of them, read
//! off its log.

use std::fmt;
use std::ops::Range;

use oracle::Access;

use super::kinds::Kind;
use super::progress::Stop;
use super::Comparison;
use crate::calls::build::manual_write;
use crate::calls::case::Case;
use crate::calls::chip::*;
use crate::calls::known::{Known, MANUAL_WRITES};
use crate::calls::run::Run;

/// The lengths of the buffers, at the edges of blocks.
const LENGTHS: [usize; 7] = [255, 256, 257, 510, 511, 765, 766];

/// The later blocks at whose byte 0 a NACK has to come, and how many filling zeros before one.
const LATER: [usize; 2] = [1, 2];
const ZEROS: [usize; 3] = [1, 2, 3];

/// The accesses before the ICR word that clears a NACK at byte 0 of a later block, from the status word
/// by which the last byte of the block before goes out.
const BEFORE: usize = 5;

/// In how many ways each call is cut at random.
const CUTS: usize = 8;

#[derive(Clone, Copy, Debug, PartialEq, Eq, PartialOrd, Ord)]
pub enum Total {
    /// A NACK came at byte 0 of this later block, which was the last or was not.
    Between { call: u32, block: usize, last: bool },
    /// There a byte was flushed.
    Flushed { call: u32, last: bool },
    /// There the run was cut after each access around the NACK.
    Cut { call: u32, last: bool },
    /// A NACK came after a full buffer and so many zeros.
    Zeros { call: u32, zeros: usize },
}

impl Total {
    pub fn all() -> Vec<Total> {
        MANUAL_WRITES.map(Total::of_call).concat()
    }

    fn of_call(call: u32) -> Vec<Total> {
        let mut all = Vec::new();
        for last in [false, true] {
            all.extend(LATER.map(|block| Total::Between { call, block, last }));
            all.push(Total::Flushed { call, last });
            all.push(Total::Cut { call, last });
        }
        all.extend(ZEROS.map(|zeros| Total::Zeros { call, zeros }));
        all
    }
}

impl fmt::Display for Total {
    fn fmt(&self, f: &mut fmt::Formatter) -> fmt::Result {
        let kind = |last| if last { "the last" } else { "not the last" };
        match *self {
            Total::Between { call, block, last } => {
                let kind = kind(last);
                write!(f, "call {call}: NACK at byte 0 of block {block}, {kind}")
            }
            Total::Flushed { call, last } => {
                let kind = kind(last);
                write!(f, "call {call}: a flush at byte 0 of a later block, {kind}")
            }
            Total::Cut { call, last } => {
                let kind = kind(last);
                write!(
                    f,
                    "call {call}: cut after each access around such a NACK, {kind}"
                )
            }
            Total::Zeros { call, zeros } => {
                write!(f, "call {call}: NACK after a full buffer, zeros: {zeros}")
            }
        }
    }
}

/// What a run shows of them that had a buffer of this length.
pub fn of(call: u32, length: usize, report: u32, log: &[Access]) -> Vec<Total> {
    if !MANUAL_WRITES.contains(&call) || report != 0 {
        return Vec::new();
    }
    let put = put_out(log);
    let mut shown = Vec::new();
    let known = Known::at_nack(put, length);
    if let Some(Known::LaterBlock | Known::LastBlock) = known {
        let (block, last) = (put / 255, known == Some(Known::LastBlock));
        if LATER.contains(&block) {
            shown.push(Total::Between { call, block, last });
        }
        let written = log.iter().filter(|entry| entry[0] == WRITTEN + TXDR);
        if written.count() > put {
            shown.push(Total::Flushed { call, last });
        }
    }
    let zeros = put.saturating_sub(length);
    if ZEROS.contains(&zeros) {
        shown.push(Total::Zeros { call, zeros });
    }
    shown
}

/// The entries around a NACK that ends a manual write, to the end of its log.
pub fn around_nack(log: &[Access]) -> Range<usize> {
    let nack = log.iter().rposition(|&it| it == [WRITTEN + ICR, NACKF]);
    nack.map_or(0..0, |nack| nack.saturating_sub(BEFORE)..log.len())
}

/// Goes through all of these calls.
pub fn all(comparison: &mut Comparison) -> Result<(), Stop> {
    comparison.progress.part = "totals".to_string();
    let cases = cases();
    for case in &cases {
        for _ in 0..CUTS {
            comparison.check(case.into(), true)?;
        }
        let log = Run::of(case).log;
        let around: Vec<usize> = around_nack(&log).collect();
        for &end in &around {
            comparison.check_at(case.into(), &[end])?;
        }
        comparison.check_at(case.into(), &around)?;
        for shown in of(case.asked.call, case.buffer.len(), 0, &log) {
            if let Total::Between { call, last, .. } = shown {
                comparison.kinds.add(Kind::Total(Total::Cut { call, last }));
            }
        }
    }
    println!(
        "runs: {} manual writes that meet a NACK, each cut after every access around it",
        cases.len()
    );
    Ok(())
}

/// Both manual writes with a NACK at every byte next to a border of blocks and up to some zeros after
/// the last, with a byte to flush and without.
fn cases() -> Vec<Case> {
    let mut cases = Vec::new();
    for number in MANUAL_WRITES {
        for length in LENGTHS {
            for bytes in ends(length) {
                let case = manual_write(number, length, bytes);
                let flushes = [[0, 0], [0, TXE], [TXIS, 0], [TXIS, TXE]];
                cases.extend(flushes.map(|it| case.clone().answers(&[NACKF]).answers(&it)));
            }
        }
    }
    cases
}

/// After how many bytes the NACK comes.
fn ends(length: usize) -> Vec<usize> {
    let around = |edge: usize| edge.saturating_sub(1)..=edge + 1;
    let blocks = (0..length).step_by(255).flat_map(around);
    let mut ends: Vec<usize> = blocks.chain(length - 1..=length + ZEROS.len()).collect();
    ends.sort();
    ends.dedup();
    ends
}

#[cfg(test)]
mod tests {
    use super::*;
    use std::collections::BTreeSet;

    fn shown(case: &Case) -> Vec<Total> {
        let run = Run::of(case);
        assert_eq!(run.word, "done");
        of(run.call, run.buffer.len(), 0, &run.log)
    }

    /// But for the cuts, which no uncut run shows.
    #[test]
    fn every_kind_is_among_the_cases() {
        let cases = cases();
        let all: BTreeSet<Total> = cases.iter().flat_map(shown).collect();
        let is_cut = |total: &Total| matches!(total, Total::Cut { .. });
        let missing = Total::all().into_iter().filter(|it| !all.contains(it));
        assert!(missing.into_iter().all(|it| is_cut(&it)));
        let used = |case: &Case| Run::of(case).used == case.answers.len();
        assert!(cases.iter().all(used));
    }

    #[test]
    fn every_border_is_among_the_ends() {
        assert_eq!(ends(255), [0, 1, 254, 255, 256, 257, 258]);
        let blocks = [0, 1, 254, 255, 256, 509, 510, 511];
        assert_eq!(ends(511), [&blocks[..], &[512, 513, 514]].concat());
    }

    #[test]
    fn a_nack_between_blocks_is_told_from_others() {
        let call = 26;
        let after = |length, bytes| shown(&manual_write(call, length, bytes).nacks());
        let between = |block, last| Total::Between { call, block, last };
        assert_eq!(after(256, 255), [between(1, true)]);
        assert_eq!(after(511, 255), [between(1, false)]);
        assert_eq!(after(511, 510), [between(2, true)]);
        assert_eq!(after(511, 0), []);
        assert_eq!(after(511, 256), []);
        assert_eq!(after(255, 255), []);
        let zeros = |zeros| Total::Zeros { call, zeros };
        assert_eq!(after(255, 256), [zeros(1)]);
        assert_eq!(after(510, 513), [zeros(3)]);
        let flushed = manual_write(call, 256, 255).answers(&[NACKF, TXIS, 0]);
        let flush = Total::Flushed { call, last: true };
        assert_eq!(shown(&flushed), [between(1, true), flush]);
    }

    /// The status word of the last byte, the byte, CR2 read and written, the status word with the NACK,
    /// its ICR word and up to four entries more.
    #[test]
    fn what_lies_around_a_nack() {
        let codes = |case: &Case| {
            let log = Run::of(case).log;
            let entries = log[around_nack(&log)].iter();
            entries.map(|entry| entry[0]).collect::<Vec<u32>>()
        };
        let [status, sent, cleared] = [ISR, WRITTEN + TXDR, WRITTEN + ICR];
        let before = [status, sent, CR2, WRITTEN + CR2, status, cleared];
        let after = [status, sent, status, WRITTEN + ISR];
        let flushed = manual_write(26, 511, 255).answers(&[NACKF, TXIS, 0]);
        assert_eq!(codes(&flushed), [&before[..], &after].concat());
        let plain = manual_write(28, 256, 255).nacks();
        assert_eq!(codes(&plain), [&before[..], &[status; 2]].concat());
        assert_eq!(codes(&manual_write(26, 256, 255)), []);
    }
}
