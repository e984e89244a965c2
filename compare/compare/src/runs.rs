//! `compare runs`: the Rust driver and the Rattle driver, through its C boundary, on the same inputs
//! in one process, uncut and cut.
//!
//! After a fixed sample of calls, the events with a ten-bit header ([`headers`]) and the manual writes
//! that meet a NACK ([`totals`]) come four parts: long calls ([`long`]), every sequence of answers up to
//! a length ([`walk`]), every state of small and large calls ([`graph`]), and random calls.

mod carried;
mod check;
mod cut;
mod graph;
mod headers;
mod kinds;
mod long;
mod polls;
mod progress;
pub mod room;
mod saved;
mod show;
mod shown;
mod totals;
mod truth;
mod walk;
mod words;
mod wrong;

use std::io;
use std::time::Duration;

use oracle::WAYS;

use crate::calls::case::Case;
use crate::calls::generate;
use crate::calls::outside::Row;
use crate::calls::sample;
use crate::calls::tally::Tally;
use crate::random::Random;
use check::{Checker, Ended, Input};
use kinds::Kinds;
use progress::{Progress, Stop};
use walk::Walk;

/// If no time is given, sequences of a call are made longer until there are so many of one length.
const SEQUENCES: u64 = 30_000;

/// A poll of few words goes on for ever.
const LONGEST: usize = 12;

/// In how many ways each call of the sample is cut.
const CUTS: usize = 100;

/// How much is compared.
pub enum Limit {
    /// Long calls, sequences of answers, all states, and so many random calls.
    Runs(u64),
    /// A quarter of the time at most for long calls, a quarter for sequences, as long as it allows, a
    /// quarter at most for all states, and the rest for random calls.
    Seconds(u64),
}

/// Both drivers, and what came of their runs.
pub struct Comparison {
    checker: Checker,
    progress: Progress,
    tally: Tally,
    kinds: Kinds,
    /// Whether the long calls were gone through, so that no kind of run may be missing.
    long: bool,
    random: Random,
}

impl Comparison {
    /// Compares one input, and cuts it if that is asked for.
    fn check(&mut self, input: Input, cuts: bool) -> Result<Ended, Stop> {
        let cuts = cuts.then_some(&mut self.random);
        let checked = self.checker.check(input, cuts);
        self.count(input, checked)
    }

    /// Compares one input, cut after each of these numbers of accesses.
    fn check_at(&mut self, input: Input, ends: &[usize]) -> Result<Ended, Stop> {
        let checked = self.checker.check_at(input, ends, &mut self.random);
        self.count(input, checked)
    }

    /// Counts an input that was compared last, unless it showed a difference.
    fn count(&mut self, input: Input, checked: Result<Ended, String>) -> Result<Ended, Stop> {
        let ended = checked.map_err(|told| Stop::difference(input, told))?;
        let call = input.asked.call;
        self.tally
            .add(call, ended.report as usize, ended.value, ended.known);
        let (log, _) = self.checker.last();
        self.kinds.count(input, &ended, log);
        self.progress.count()?;
        Ok(ended)
    }

    /// The fixed sample of calls, each cut in several ways; those that configure a target by the Rust's
    /// setters in every way; and an example of everything that the Rust does otherwise.
    fn sample(&mut self) -> Result<(), Stop> {
        self.progress.part = "the sample".to_string();
        let calls = sample::calls();
        for (_, case) in &calls {
            for _ in 0..CUTS {
                self.check(case.into(), true)?;
            }
            if matches!(case.asked.call, 1..=3) {
                for way in 0..WAYS {
                    let case = case.clone().asking(|asked| asked.way = way);
                    self.check((&case).into(), false)?;
                }
            }
        }
        for row in Row::ALL {
            self.check((&row.example()).into(), true)?;
        }
        println!(
            "runs: {} calls of the sample, {CUTS} times each",
            calls.len()
        );
        Ok(())
    }

    fn long(&mut self) -> Result<(), Stop> {
        long::all(self)?;
        saved::all(self)?;
        carried::all(self)?;
        self.long = true;
        Ok(())
    }

    /// Sequences of growing length, for each call until there are so many of one length, or until
    /// none waits any more.
    fn sequences(&mut self, most: u64) -> Result<(), Stop> {
        let mut cases = words::small();
        for depth in 0..=LONGEST {
            self.progress.part = format!("all sequences of {depth} answers");
            let before = self.progress.runs;
            let calls = cases.len();
            let mut going = Vec::new();
            for case in cases {
                let runs = Walk::all(self, &case, depth)?;
                if (1..=most).contains(&runs) {
                    going.push(case);
                }
            }
            let runs = self.progress.runs - before;
            println!(
                "runs: all sequences of {depth} answers for {calls} descriptions: {runs} runs"
            );
            cases = going;
            if cases.is_empty() {
                break;
            }
        }
        Ok(())
    }

    fn states(&mut self) -> Result<(), Stop> {
        let before = self.progress.runs;
        let mut states = 0;
        for case in words::small().into_iter().chain(words::large()) {
            let name = words::name(&case.asked, case.buffer.len());
            self.progress.part = format!("all states of {name}");
            states += graph::all(self, &case)?;
        }
        let runs = self.progress.runs - before;
        println!("runs: all {states} states: {runs} runs");
        Ok(())
    }

    /// Random calls, each uncut and cut.
    fn random(&mut self, most: u64) -> Result<(), Stop> {
        self.progress.part = "random calls".to_string();
        let mut source = self.random.split();
        for _ in 0..most {
            let case = generate::case_or_edge(&mut source);
            self.check((&case).into(), true)?;
        }
        println!("runs: {most} random calls");
        Ok(())
    }

    fn all(&mut self, limit: Limit) -> Result<(), Stop> {
        match limit {
            Limit::Runs(most) => {
                self.sample()?;
                headers::all(self)?;
                totals::all(self)?;
                self.long()?;
                self.sequences(SEQUENCES)?;
                self.states()?;
                self.random(most)
            }
            Limit::Seconds(seconds) => {
                let time = Duration::from_secs(seconds);
                self.sample()?;
                headers::all(self)?;
                totals::all(self)?;
                self.until(time / 4, Self::long)?;
                self.until(time / 2, |it| it.sequences(u64::MAX))?;
                self.until(time * 3 / 4, Self::states)?;
                self.until(time, |it| it.random(u64::MAX))
            }
        }
    }

    /// A part that may last until so long after the start.
    fn until(
        &mut self,
        time: Duration,
        part: impl FnOnce(&mut Self) -> Result<(), Stop>,
    ) -> Result<(), Stop> {
        self.progress.stop_after(time);
        match part(self) {
            Err(Stop::TimeIsUp) => Ok(()),
            stop => stop,
        }
    }
}

/// Compares one call, uncut.
pub fn check_once(case: &Case) -> Result<(), String> {
    Checker::default().check(case.into(), None).map(|_| ())
}

/// Compares. True if nothing differs but what is known, and all was reached.
pub fn compare(limit: Limit, seed: u64) -> io::Result<bool> {
    println!("runs: from seed {seed}");
    let mut comparison = Comparison {
        checker: Checker::default(),
        progress: Progress::new(),
        tally: Tally::default(),
        kinds: Kinds::default(),
        long: false,
        random: Random::new(seed),
    };
    let differences = match comparison.all(limit) {
        Err(Stop::Difference(case, told)) => {
            show::difference(&case, &told)?;
            1
        }
        Ok(()) | Err(Stop::TimeIsUp) => 0,
    };
    let Comparison {
        progress,
        tally,
        kinds,
        long,
        ..
    } = comparison;
    tally.print();
    kinds.print();
    let reached = tally.all_reached() && (!long || kinds.all_reached());
    let short = progress.runs < 1_000_000;
    let all = short || differences > 0 || reached;
    if !all {
        println!(
            "runs: a call, an outcome, a refusal, a known difference or a kind of run was not \
             reached"
        );
        kinds.print_missing();
    }
    println!(
        "runs: {} runs compared, {differences} differences",
        progress.runs
    );
    Ok(all && differences == 0)
}
