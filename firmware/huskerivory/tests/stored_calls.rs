//! Stored calls, whose text was written by the Rust driver (`compare store-calls`): every call,
//! outcome and refusal. Each is polled to its end, or until no answer is left; and again with the
//! call stored as bytes and taken up anew at every poll.

mod common;

use common::{words, Scripted};
use huskerivory::{Description, Operation, Running, SavedCall};
use std::fmt::Write;
use std::task::Poll;

const CALLS: &str = include_str!("stored/calls.txt");
const TEXT: &str = include_str!("stored/text.txt");

struct Stored {
    /// In the order of `Description::from_words`.
    words: [u32; 10],
    operations: Vec<Operation>,
    buffer: Vec<u8>,
    answers: Vec<u32>,
}

impl Stored {
    fn none() -> Self {
        Stored {
            words: [0, 0, 0, 0, 0, 0, 0, 0, u32::MAX, u32::MAX],
            operations: Vec::new(),
            buffer: Vec::new(),
            answers: Vec::new(),
        }
    }

    fn flag(&mut self, name: &str) {
        match name {
            "ten" => self.words[2] = 1,
            "configured" => self.words[5] = 1,
            "own-ten" => self.words[7] = 1,
            _ => {}
        }
    }

    fn number(&mut self, name: &str, number: u32) {
        match name {
            "call" => self.words[0] = number,
            "address" => self.words[1] = number,
            "listen" => self.words[3] = number,
            "timing" => self.words[4] = number,
            "own" => self.words[6] = number,
            "secondary" => self.words[8] = number,
            "mask" => self.words[9] = number,
            "ops" => self.operations.push(Operation::from_word(number)),
            "bytes" => self.buffer.push(number as u8),
            "zeros" => self.buffer.resize(self.buffer.len() + number as usize, 0),
            "answers" => self.answers.push(number),
            _ => panic!("{number} after {name}"),
        }
    }

    /// Its text, begun and polled; `anew` takes the call up from its bytes at every poll.
    fn text(&self, anew: bool) -> String {
        let description = Description::from_words(self.words);
        let mut buffer = self.buffer.clone();
        let mut registers = Scripted::new(&self.answers);
        let mut polls = 0;
        let (outcome, saved) = match Running::begin(description, &self.operations, &mut buffer) {
            Err(refusal) => (("refused", refusal.0), SavedCall::NONE),
            Ok(mut running) => loop {
                if running.awaited().is_some() && registers.answers_left() == 0 {
                    break (("waiting", 0), running.saved());
                }
                polls += 1;
                assert!(polls <= self.answers.len() + 1, "a poll without a read");
                if let Poll::Ready(ended) = running.poll(&mut registers) {
                    break (words(ended), running.saved());
                }
                if anew {
                    let bytes = running.saved().to_bytes();
                    running = Running::resume(
                        description,
                        &self.operations,
                        &mut buffer,
                        SavedCall::from_bytes(bytes),
                    )
                    .expect("a call that was saved can be taken up");
                }
            },
        };
        let used = self.answers.len() - registers.answers_left();
        let mut text = format!(
            "{} {} {} {used} {}\n",
            self.words[0],
            outcome.0,
            outcome.1,
            saved.accesses()
        );
        for access in registers.accesses() {
            writeln!(text, "{access}").unwrap();
        }
        text.push('b');
        for (i, byte) in buffer.iter().enumerate() {
            write!(text, "{}{byte:02X}", if i == 0 { " " } else { "" }).unwrap();
        }
        text
    }
}

/// A number in decimal or, after 0x, in hexadecimal.
fn number(word: &str) -> Option<u32> {
    match word.strip_prefix("0x") {
        Some(digits) => u32::from_str_radix(digits, 16).ok(),
        None => word.parse().ok(),
    }
}

fn stored_calls() -> Vec<Stored> {
    let lines = CALLS.lines().map(|it| it.split('#').next().unwrap_or(""));
    let mut calls = Vec::new();
    let mut call = Stored::none();
    let mut name = "";
    for word in lines.flat_map(str::split_whitespace) {
        if let Some(number) = number(word) {
            call.number(name, number);
        } else if word == "run" {
            calls.push(std::mem::replace(&mut call, Stored::none()));
        } else {
            name = word;
            call.flag(name);
        }
    }
    calls
}

/// The text of each call, which ends with the line of its buffer.
fn stored_texts() -> Vec<String> {
    let mut texts = Vec::new();
    let mut lines = Vec::new();
    for line in TEXT.lines() {
        lines.push(line);
        if line.starts_with('b') {
            texts.push(lines.join("\n"));
            lines.clear();
        }
    }
    assert_eq!(lines, [format!("calls {}", texts.len())]);
    texts
}

fn check(anew: bool) {
    let calls = stored_calls();
    let texts = stored_texts();
    assert!(!calls.is_empty());
    assert_eq!(calls.len(), texts.len());
    for (i, (call, text)) in calls.iter().zip(texts).enumerate() {
        assert_eq!(call.text(anew), text, "stored call {i}");
    }
}

#[test]
fn polled() {
    check(false);
}

#[test]
fn taken_up_anew_at_every_poll() {
    check(true);
}
