//! Telling of a difference, by the smallest call that was found to show one.

use std::io;

use super::check::Checker;
use crate::calls::case::Case;
use crate::calls::run::Run;
use crate::calls::shrink;
use crate::calls::tally::WORDS;
use crate::difference;
use crate::random::Random;
use crate::rattle::{self, Description, ENTRY, FULL, SAVED};

/// In how many ways a call is cut, where one is looked for that differs.
const CUTS: u64 = 30;

/// How many lines of a call are shown at most.
const LINES: usize = 200;

pub fn difference(case: &Case, told: &str) -> io::Result<()> {
    println!("runs: a difference in {told}");
    let cuts = if differs(case, 0).is_some() { 0 } else { CUTS };
    let smallest = shrink::smallest(case, |case| Ok(differs(case, cuts).is_some()))?;
    let shown = smallest.text("");
    println!("runs: it is shown by\n");
    shown
        .lines()
        .take(LINES)
        .for_each(|line| println!("{line}"));
    match shown.lines().count().saturating_sub(LINES) {
        0 => println!(),
        more => println!("and {more} lines more\n"),
    }
    match differs(&smallest, cuts) {
        Some(told) => println!("{told}"),
        None => println!("only with the cuts that found it"),
    }
    difference::print(&text(&Run::of(&smallest)), &text(&given(&smallest)));
    Ok(())
}

/// What differs in a call, uncut or cut in so many ways.
fn differs(case: &Case, cuts: u64) -> Option<String> {
    let uncut = Checker::default().check(case.into(), None).err();
    let cut = |seed| {
        let mut random = Random::new(seed);
        let checked = Checker::default().check(case.into(), Some(&mut random));
        checked.err()
    };
    uncut.or_else(|| (0..cuts).find_map(cut))
}

fn text(run: &Run) -> String {
    let mut text = String::new();
    run.write_accesses(&mut text);
    run.write_buffer(&mut text);
    text
}

/// Rattle's uncut run.
fn given(case: &Case) -> Run {
    let description = Description::from(&case.asked);
    let operations = rattle::bytes(&case.asked.operations);
    let mut saved = [0; SAVED];
    let mut buffer = case.buffer.clone();
    let mut log = vec![0; (8 * case.answers.len() + 64) * ENTRY];
    rattle::begin(&description, operations, &buffer, &mut saved);
    let given = rattle::advance(
        &description,
        operations,
        &mut saved,
        &mut buffer,
        rattle::bytes(&case.answers),
        &mut log,
    );
    let word = |bytes: &[u8]| u32::from_le_bytes(bytes.try_into().expect("four bytes"));
    let entries = log.chunks(ENTRY).take(given.written);
    Run {
        call: case.asked.call,
        word: match given.report {
            FULL => "full",
            report => WORDS.get(report as usize).copied().unwrap_or("no outcome"),
        },
        value: given.value,
        known: None,
        used: given.used,
        log: entries
            .map(|entry| [word(&entry[..4]), word(&entry[4..])])
            .collect(),
        buffer,
    }
}
