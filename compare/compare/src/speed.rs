//! `compare speed`: what an access costs in the Rust driver and in the Rattle driver.
//!
//! Both are built for release into this program, over memory that was prepared before. Of each
//! workload short batches of both are timed in turn and the quickest of each kind counts, so that
//! what else the machine does hardly matters; only ratios of one run of this command say something.

mod clock;

use std::hint::black_box;

use oracle::{cut, run_over, RegisterBlock};

use crate::calls::build::{call, counted, transaction, READ};
use crate::calls::case::Case;
use crate::calls::chip::*;
use crate::calls::run::Run;
use crate::rattle::{self, Description, Left, ENTRY, FULL, SAVED, WAITING};
use crate::runs;

/// How long a batch takes at least, and all batches of a workload, in ns.
const BATCH: f64 = 1e5;
const WORKLOAD: f64 = 1e9;

/// Even of long runs so many batches are timed, and so many of a quick kind beside a slow one.
const LEAST: u32 = 10;
const MOST: u32 = 30;

/// The places of the log where answers come one at a time.
const PLACES: usize = 8;

/// Times all workloads and prints a table. False if one of them was not run alike by both.
pub fn compare() -> bool {
    println!("ns for each access; in brackets the ratio to the Rust's");
    println!(
        "{:<46}{:>9}{:>9}{:>17}{:>17}",
        "workload", "accesses", "Rust", "Rattle, uncut", "by one answer"
    );
    workloads().iter().all(|(name, case)| match measure(case) {
        Ok(row) => {
            row.print(name);
            true
        }
        Err(told) => {
            println!("{name}: {told}");
            false
        }
    })
}

fn workloads() -> Vec<(String, Case)> {
    let mut all = Vec::new();
    for idle in [0, 3] {
        let polls = match idle {
            0 => "at once".to_string(),
            _ => format!("{idle} idle polls"),
        };
        let mut add = |name: &str, case| all.push((format!("{name}, {polls}"), case));
        add("write of 255 bytes", write(&[255], idle));
        add("read of 255 bytes", read(255, idle));
        add("64 writes of 255 bytes", write(&[255; 64], idle));
        add("manual target write of 600", transmit(26, 600, idle));
        add("event", event(idle));
    }
    // As many accesses as a write of 255 bytes has, in 64 operations.
    let mut short = [2; 64];
    short[0] = 3;
    let mut add = |name: &str, case| all.push((name.to_string(), case));
    add("one operation, 515 accesses", write(&[255], 0));
    add("64 operations, 515 accesses", write(&short, 0));
    add("write of 65,535 bytes, one operation", write(&[65_535], 0));
    let mut most = [0; 64];
    most[63] = 65_535;
    add("63 empty writes and one of 65,535 bytes", write(&most, 0));
    for length in [1, 65_535] {
        let name = format!("target write of {length} bytes");
        add(&name, transmit(10, length, 0));
        add(&format!("manual {name}"), transmit(26, length, 0));
    }
    all
}

/// So many idle polls, and then the awaited word.
fn wait(answers: &mut Vec<u32>, idle: usize, word: u32) {
    answers.extend(vec![TXE; idle]);
    answers.push(word);
}

/// The wait for a start: ISR and CR2 in turn.
fn start(answers: &mut Vec<u32>, idle: usize) {
    for _ in 0..idle {
        answers.extend([TXE, START]);
    }
    answers.extend([TXE, 0]);
}

fn write(operations: &[u32], idle: usize) -> Case {
    let mut answers = Vec::new();
    let pieces = cut(operations);
    for (place, &length) in pieces.iter().enumerate() {
        start(&mut answers, idle);
        for _ in 0..length {
            wait(&mut answers, idle, TXE | TXIS);
        }
        let last = place + 1 == pieces.len();
        wait(&mut answers, idle, TXE | if last { STOPF } else { TCR });
    }
    let length: u32 = operations.iter().sum();
    transaction(operations)
        .bytes(&counted(length as usize))
        .answers(&answers)
}

fn read(length: u32, idle: usize) -> Case {
    let mut answers = Vec::new();
    start(&mut answers, idle);
    for byte in 0..length {
        wait(&mut answers, idle, TXE | RXNE);
        answers.push(byte);
    }
    wait(&mut answers, idle, TXE | STOPF);
    transaction(&[READ | length])
        .zeros(length as usize)
        .answers(&answers)
}

/// A target's write: the controller takes all bytes and one zero, which it does not acknowledge.
fn transmit(number: u32, length: usize, idle: usize) -> Case {
    let bytes = counted(length);
    let mut answers = Vec::new();
    for block in bytes.chunks(255) {
        if number == 26 {
            answers.push(0);
        }
        for _ in block {
            wait(&mut answers, idle, TXE | TXIS);
        }
    }
    wait(&mut answers, idle, TXE | TXIS);
    wait(&mut answers, idle, TXE | NACKF);
    answers.extend([TXE, TXE]);
    call(number).bytes(&bytes).answers(&answers)
}

fn event(idle: usize) -> Case {
    let mut answers = Vec::new();
    wait(&mut answers, idle, TXE | ADDR | addcode(0x50));
    call(8).answers(&answers)
}

struct Row {
    accesses: usize,
    rust: f64,
    uncut: f64,
    single: f64,
}

impl Row {
    fn print(&self, name: &str) {
        let each = |time: f64| time / self.accesses as f64;
        let ratio = |time: f64| format!("{:.2} ({:.2})", each(time), time / self.rust);
        println!(
            "{name:<46}{:>9}{:>9.2}{:>17}{:>17}",
            self.accesses,
            each(self.rust),
            ratio(self.uncut),
            ratio(self.single)
        );
    }
}

fn measure(case: &Case) -> Result<Row, String> {
    runs::check_once(case)?;
    let run = Run::of(case);
    if run.word == "waiting" || run.used != case.answers.len() {
        return Err(format!("the Rust ends as {} after {}", run.word, run.used));
    }
    let accesses = run.log.len();
    let mut rust = Rust::new(case);
    let mut whole = Rattle::new(case, accesses);
    let mut cut = Rattle::new(case, accesses);
    let counts = [rust.run(), whole.uncut(), cut.single()];
    if counts != [accesses; 3] {
        return Err(format!("the accesses are {counts:?}"));
    }
    let best = best([&mut || rust.run(), &mut || whole.uncut(), &mut || {
        cut.single()
    }]);
    let [rust, uncut, single] = best;
    Ok(Row {
        accesses,
        rust,
        uncut,
        single,
    })
}

/// The quickest of each kind, in ns for a run. Batches of all kinds are timed in turn, and of a quick
/// kind several beside one of a slow kind.
fn best(mut runs: [&mut dyn FnMut() -> usize; 3]) -> [f64; 3] {
    let turns = runs.each_mut().map(|run| turns(run));
    let mut best = [f64::MAX; 3];
    let begun = clock::now();
    let mut rounds = 0;
    while rounds < LEAST || clock::now() - begun < WORKLOAD {
        let batches = best
            .iter()
            .zip(turns)
            .map(|(best, turns)| best * f64::from(turns));
        let slowest = batches.clone().fold(0.0, f64::max);
        let repeats: Vec<u32> = batches.map(|batch| (slowest / batch) as u32).collect();
        for (place, run) in runs.iter_mut().enumerate() {
            for _ in 0..repeats[place].clamp(1, MOST) {
                best[place] = best[place].min(time(turns[place], run));
            }
        }
        rounds += 1;
    }
    best
}

/// How many turns fill a batch.
fn turns(run: &mut dyn FnMut() -> usize) -> u32 {
    let mut turns = 1;
    while time(turns, run) * f64::from(turns) < BATCH {
        turns *= 2;
    }
    turns
}

/// What a run takes, in ns.
fn time(turns: u32, run: &mut dyn FnMut() -> usize) -> f64 {
    let start = clock::now();
    for _ in 0..turns {
        black_box(run());
    }
    (clock::now() - start) / f64::from(turns)
}

struct Rust<'a> {
    description: oracle::Description<'a>,
    registers: RegisterBlock,
    buffer: Vec<u8>,
}

impl<'a> Rust<'a> {
    fn new(case: &'a Case) -> Self {
        let mut registers = RegisterBlock::default();
        registers.load(&case.answers);
        let description = case.asked.description(case.buffer.len());
        Rust {
            description: description.expect("the driver can express a workload"),
            registers,
            buffer: case.buffer.clone(),
        }
    }

    /// The accesses of a run.
    fn run(&mut self) -> usize {
        self.registers.rewind();
        let outcome = run_over(&self.registers, &self.description, &mut self.buffer);
        black_box(outcome);
        self.registers.log().len()
    }
}

struct Rattle<'a> {
    description: Description,
    operations: &'a [u8],
    answers: &'a [u8],
    buffer: Vec<u8>,
    log: Vec<u8>,
    saved: [u8; SAVED],
    left: Left,
}

impl<'a> Rattle<'a> {
    fn new(case: &'a Case, accesses: usize) -> Self {
        Rattle {
            description: (&case.asked).into(),
            operations: rattle::bytes(&case.asked.operations),
            answers: rattle::bytes(&case.answers),
            buffer: case.buffer.clone(),
            log: vec![0; (accesses + PLACES) * ENTRY],
            saved: [0; SAVED],
            left: Left::UNWRITTEN,
        }
    }

    fn begin(&mut self) {
        let refusal = rattle::begin(
            &self.description,
            self.operations,
            &self.buffer,
            &mut self.saved,
        );
        debug_assert_eq!(refusal, 0);
    }

    /// The report; the numbers that come with it are left as the library wrote them, since looking
    /// at each is no part of what is measured.
    fn advance(&mut self, answers: &'a [u8], places: usize) -> u32 {
        rattle::advance_into(
            &self.description,
            self.operations,
            &mut self.saved,
            &mut self.buffer,
            answers,
            &mut self.log[..places * ENTRY],
            &mut self.left,
        )
    }

    fn written(&self) -> usize {
        self.left.written as usize
    }

    /// The accesses of a run in one advance.
    fn uncut(&mut self) -> usize {
        self.begin();
        let places = self.log.len() / ENTRY;
        self.advance(self.answers, places);
        self.written()
    }

    /// The accesses of a run as firmware makes it: each answer by an advance of its own.
    fn single(&mut self) -> usize {
        self.begin();
        let mut answers = self.answers;
        let mut report = self.advance(&[], PLACES);
        let mut accesses = self.written();
        loop {
            report = match report {
                WAITING if !answers.is_empty() => {
                    let (answer, rest) = answers.split_at(4);
                    answers = rest;
                    self.advance(answer, PLACES)
                }
                FULL => self.advance(&[], PLACES),
                _ => return accesses,
            };
            accesses += self.written();
        }
    }
}

#[cfg(test)]
mod tests {
    use super::*;

    #[test]
    fn every_workload_goes_to_its_end() {
        for (name, case) in workloads() {
            let run = Run::of(&case);
            assert!(matches!(run.word, "done" | "event-write"), "{name}");
            assert_eq!(run.used, case.answers.len(), "{name}");
        }
    }

    #[test]
    fn one_operation_and_64_have_as_many_accesses() {
        let all = workloads();
        let accesses = |name: &str| {
            let (_, case) = all.iter().find(|(it, _)| it == name).unwrap();
            Run::of(case).log.len()
        };
        assert_eq!(accesses("one operation, 515 accesses"), 515);
        assert_eq!(accesses("64 operations, 515 accesses"), 515);
    }
}
