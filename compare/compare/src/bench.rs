//! `compare bench`, `compare bench-text` and `compare store-bench`: bench files, and what the bench program prints of them
//! beside what the driver does, with the accesses in lines or, by `--page`, as service pages.

mod entry;
mod generate;
mod meaning;
pub mod sample;
mod shrink;
mod text;

use std::{fs, io};

use crate::calls::tally::Tally;
use crate::difference;
use crate::process;
use crate::random::Random;
pub use text::Accesses;

/// How many words, and how many lines, are shown of a difference at most.
const SHOWN: usize = 200;

/// The program, and how it is to tell accesses.
#[derive(Clone, Copy)]
pub struct Program<'a> {
    pub path: &'a str,
    pub accesses: Accesses,
}

/// Compares random files. True if all went well.
pub fn compare(files: u64, seed: u64, program: Program) -> io::Result<bool> {
    let accesses = program.accesses;
    println!(
        "bench: the file with the longest text, and random ones from seed {seed}, {files} in all, \
         with accesses {}",
        accesses.words()
    );
    let mut random = Random::new(seed);
    let mut counts = Counts::default();
    for turn in 0..files {
        let file = match turn {
            0 => generate::longest(),
            _ => generate::file(&mut random),
        };
        let expected = text::of(&file, accesses);
        if given(program, &file)? != expected.text.as_bytes() {
            show(&file, program)?;
            return Ok(false);
        }
        counts.count(&expected);
    }
    counts.print();
    println!("bench: {files} files compared, 0 differences");
    let all = files < 5_000 || counts.all_reached();
    if !all {
        println!(
            "bench: a call, an outcome, a refusal, a later piece or a known difference was not \
             reached"
        );
    }
    Ok(all)
}

/// Prints the text of a file from the Rust.
pub fn print(file: &str, accesses: Accesses) -> io::Result<bool> {
    print!("{}", text::of(&fs::read(file)?, accesses).text);
    Ok(true)
}

/// What the program prints, and says by its status where that is no success.
fn given(program: Program, file: &[u8]) -> io::Result<Vec<u8>> {
    let arguments: &[&str] = match program.accesses {
        Accesses::Lines => &[],
        Accesses::Page => &["--page", "/dev/stdin"],
    };
    let output = process::run(program.path, arguments, file)?;
    let failure = process::failure(&output);
    let mut text = output.stdout;
    text.extend(failure.unwrap_or_default().bytes());
    Ok(text)
}

/// Shows a difference by the smallest file that was found to have one.
fn show(file: &[u8], program: Program) -> io::Result<()> {
    let expected = |file: &[u8]| text::of(file, program.accesses).text;
    let smallest = shrink::smallest(file, |file| {
        Ok(given(program, file)? != expected(file).as_bytes())
    })?;
    let (words, rest) = entry::words(&smallest);
    let shown: Vec<String> = words.iter().take(SHOWN).map(shown).collect();
    println!("bench: a difference is shown by a file of the words");
    println!("\n{}", shown.join(", "));
    if words.len() > SHOWN {
        println!("and {} more", words.len() - SHOWN);
    }
    if !rest.is_empty() {
        println!("and the bytes {rest:?}");
    }
    let expected = expected(&smallest);
    let given = given(program, &smallest)?;
    let given = String::from_utf8_lossy(&given);
    println!("\nexpected\n\n{}\ngiven\n\n{}", cut(&expected), cut(&given));
    difference::print(&expected, &given);
    Ok(())
}

/// A word as document 01 writes it.
fn shown(word: &u32) -> String {
    match word {
        0..=9 => word.to_string(),
        _ => format!("0x{word:X}"),
    }
}

/// A text's first lines.
fn cut(text: &str) -> String {
    text.split_inclusive('\n').take(SHOWN).collect()
}

/// What was compared.
#[derive(Default)]
struct Counts {
    files: u64,
    refused: u64,
    empty: u64,
    /// Calls that came to a later piece of an operation, and those that were done then.
    later: u64,
    later_done: u64,
    calls: Tally,
}

impl Counts {
    fn count(&mut self, printed: &text::Printed) {
        self.files += 1;
        match &printed.calls {
            None => self.refused += 1,
            Some(calls) => {
                self.empty += u64::from(calls.is_empty());
                calls.iter().for_each(|run| self.calls.count(run));
                self.later += printed.later.len() as u64;
                let done = printed.later.iter().filter(|&&word| word == "done");
                self.later_done += done.count() as u64;
            }
        }
        if self.files.is_multiple_of(2_000) {
            eprintln!("bench: {} files", self.files);
        }
    }

    fn print(&self) {
        self.calls.print();
        println!("files refused as 14: {}", self.refused);
        println!("files without a call: {}", self.empty);
        println!(
            "calls that came to a later piece of an operation: {}, of which done: {}",
            self.later, self.later_done
        );
        println!("calls: {}", self.calls.runs);
    }

    fn all_reached(&self) -> bool {
        let later = self.later > self.later_done && self.later_done > 0;
        self.refused > 0 && self.empty > 0 && later && self.calls.all_reached()
    }
}
