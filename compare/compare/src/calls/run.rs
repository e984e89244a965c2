//! What a call comes to: the driver's run, but for what is known to differ, or document 01's refusal;
//! and its text, as document 01's bench has it.

use std::fmt::Write;

use oracle::Access;

use super::case::Case;
use super::known::{End, Known};

pub struct Run {
    pub call: u32,
    /// Document 01's word of the outcome.
    pub word: &'static str,
    pub value: u32,
    /// What the driver does otherwise.
    pub known: Option<Known>,
    /// Answers taken.
    pub used: usize,
    pub log: Vec<Access>,
    pub buffer: Vec<u8>,
}

impl Run {
    pub fn of(case: &Case) -> Run {
        match case.asked.refusal(case.buffer.len()) {
            Some(refusal) => Run {
                call: case.asked.call,
                word: "refused",
                value: refusal,
                known: None,
                used: 0,
                log: Vec::new(),
                buffer: case.buffer.clone(),
            },
            None => Run::of_accepted(case),
        }
    }

    fn of_accepted(case: &Case) -> Run {
        let mut buffer = case.buffer.clone();
        let description = case.asked.description(buffer.len());
        let description = description.expect("the driver can express what is accepted");
        let run = oracle::run(&description, &mut buffer, &case.answers);
        let length = buffer.len();
        let end = End::of(case.asked.call, length, &run.outcome, run.value, &run.log);
        let end = end.unwrap_or_else(|told| panic!("{}: {told}", case.text("")));
        Run {
            call: case.asked.call,
            word: end.word,
            value: end.value,
            known: end.known,
            used: run.used,
            log: run.log,
            buffer,
        }
    }

    pub fn is_refused(&self) -> bool {
        self.word == "refused"
    }

    /// The line of the call.
    pub fn write_outcome(&self, text: &mut String) {
        let accesses = self.log.len();
        let (call, word, value, used) = (self.call, self.word, self.value, self.used);
        writeln!(text, "{call} {word} {value} {used} {accesses}").unwrap();
    }

    /// The lines of its accesses.
    pub fn write_accesses(&self, text: &mut String) {
        for &[code, value] in &self.log {
            let kind = if code < 0x100 { 'r' } else { 'w' };
            writeln!(text, "{kind} {:02X} {value:08X}", code & 0xFF).unwrap();
        }
    }

    /// The line of the buffer.
    pub fn write_buffer(&self, text: &mut String) {
        text.push('b');
        if !self.buffer.is_empty() {
            text.push(' ');
        }
        for byte in &self.buffer {
            write!(text, "{byte:02X}").unwrap();
        }
        text.push('\n');
    }
}

#[cfg(test)]
mod tests {
    use super::*;
    use crate::calls::build::call;

    #[test]
    fn a_refused_call() {
        let run = Run::of(&Case::default());
        assert!(run.is_refused());
        assert_eq!((run.value, run.used, run.log.len()), (12, 0, 0));
    }

    /// The line of a manual write of zeros.
    fn write(length: usize, answers: &[u32]) -> (String, Option<Known>) {
        let run = Run::of(&call(26).zeros(length).answers(answers));
        let mut line = String::new();
        run.write_outcome(&mut line);
        (line, run.known)
    }

    #[test]
    fn the_examples_of_r_6() {
        let between = [&[0][..], &[2; 255], &[0, 0x11, 1, 1]].concat();
        let line = "26 done 254 260 519\n".to_string();
        let last = (line.clone(), Some(Known::LastBlock));
        assert_eq!(write(256, &between), last);
        assert_eq!(write(511, &between), (line, Some(Known::LaterBlock)));
        let third = [&[0][..], &[2; 255], &[0], &[2; 255], &[0, 0x11, 1, 1]].concat();
        let last = "26 done 509 516 1031\n".to_string();
        assert_eq!(write(511, &third), (last, Some(Known::LastBlock)));
        // A zero counts as put out, a flush does not.
        let plain = |line: &str| (line.to_string(), None);
        let zero = write(1, &[0, 2, 2, 0x10, 0, 1]);
        assert_eq!(zero, plain("26 done 1 6 11\n"));
        let flush = write(1, &[0, 2, 0x10, 2, 1]);
        assert_eq!(flush, plain("26 done 0 5 10\n"));
    }
}
