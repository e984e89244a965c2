//! Finding a small call that still shows a difference.

use std::io;

use oracle::Asked;

use super::case::Case;
use crate::shrink;

/// The smallest call, of those tried, that differs.
pub fn smallest(case: &Case, differs: impl Fn(&Case) -> io::Result<bool>) -> io::Result<Case> {
    let smaller = |case: &Case, place: usize| Some(changes(case).nth(place)?.made(case));
    shrink::smallest(case, smaller, differs)
}

/// A way to make a call smaller.
pub enum Change {
    CutAnswers(usize),
    CutBytes(usize),
    ClearBytes,
    ClearList,
    ClearWord(usize),
    RemoveOperation(usize),
    ShortenOperation(usize),
    RemoveAnswers(usize, usize),
    MaskAnswer(usize, u32),
}

/// Puts a word of a description back to its start.
type Clear = fn(&mut Asked);

const WORDS: [Clear; 10] = [
    |asked| asked.address = 0,
    |asked| asked.ten_bit = false,
    |asked| asked.listen = 0,
    |asked| asked.timingr = 0,
    |asked| asked.configured = false,
    |asked| asked.own_address = 0,
    |asked| asked.own_ten_bit = false,
    |asked| asked.secondary_address = None,
    |asked| asked.mask = None,
    |asked| asked.way = 0,
];

/// How many answers are removed at a time.
const PARTS: [usize; 8] = [16_384, 4_096, 1_024, 256, 64, 16, 4, 1];

/// What may be tried, that with much effect first.
pub fn changes(case: &Case) -> impl Iterator<Item = Change> {
    let answers = case.answers.len();
    let bytes = case.buffer.len();
    let less = |all: usize| [all / 2, all * 3 / 4, all.saturating_sub(1)];
    let operations = (0..case.asked.operations.len()).flat_map(|place| {
        [
            Change::RemoveOperation(place),
            Change::ShortenOperation(place),
        ]
    });
    let removed = PARTS.into_iter().flat_map(move |count| {
        let places = (0..(answers + 1).saturating_sub(count)).step_by(count);
        places.map(move |place| Change::RemoveAnswers(place, count))
    });
    let masked = (0..answers).flat_map(|place| {
        let bits = (0..10).map(move |bit| Change::MaskAnswer(place, !(1 << bit)));
        [0, 0x3FF]
            .map(|mask| Change::MaskAnswer(place, mask))
            .into_iter()
            .chain(bits)
    });
    [Change::ClearBytes, Change::ClearList]
        .into_iter()
        .chain((0..WORDS.len()).map(Change::ClearWord))
        .chain(less(answers).map(Change::CutAnswers))
        .chain([0, 1].map(Change::CutBytes))
        .chain(less(bytes).map(Change::CutBytes))
        .chain(operations)
        .chain(removed)
        .chain(masked)
}

impl Change {
    /// The call after the change.
    pub fn made(&self, case: &Case) -> Case {
        let mut changed = case.clone();
        self.make(&mut changed);
        changed
    }

    fn make(&self, case: &mut Case) {
        match *self {
            Change::CutAnswers(kept) => case.answers.truncate(kept),
            Change::CutBytes(kept) => case.buffer.truncate(kept),
            Change::ClearBytes => case.buffer.fill(0),
            Change::ClearList => case.asked.operations.clear(),
            Change::ClearWord(word) => WORDS[word](&mut case.asked),
            Change::RemoveOperation(place) => remove_operation(case, place),
            Change::ShortenOperation(place) => shorten_operation(case, place),
            Change::RemoveAnswers(place, count) => {
                case.answers.drain(place..place + count);
            }
            Change::MaskAnswer(place, mask) => case.answers[place] &= mask,
        }
    }
}

/// Takes an operation out, with its bytes.
fn remove_operation(case: &mut Case, place: usize) {
    let (start, length) = bytes_of(case, place);
    case.asked.operations.remove(place);
    let end = (start + length).min(case.buffer.len());
    case.buffer.drain(start.min(end)..end);
}

/// Takes half of an operation's bytes out.
fn shorten_operation(case: &mut Case, place: usize) {
    let (start, length) = bytes_of(case, place);
    case.asked.operations[place] -= length.div_ceil(2) as u32;
    let end = (start + length).min(case.buffer.len());
    let start = (start + length / 2).min(end);
    case.buffer.drain(start..end);
}

fn bytes_of(case: &Case, place: usize) -> (usize, usize) {
    let length = |word: &u32| (word & 0xFFFF) as usize;
    let operations = &case.asked.operations;
    let start = operations[..place].iter().map(length).sum();
    (start, length(&operations[place]))
}

#[cfg(test)]
mod tests {
    use super::*;

    #[test]
    fn what_does_not_matter_goes() {
        let case = Case {
            asked: Asked {
                call: 7,
                address: 9,
                operations: vec![3, 0x1_0004, 2],
                ..Default::default()
            },
            buffer: vec![1, 2, 3, 0, 0, 0, 0, 4, 5],
            answers: vec![1, 2, 3, 0xFFFF_FFFF, 5],
        };
        let small = smallest(&case, |case| {
            let reads = case.asked.operations.iter().any(|word| word >> 16 == 1);
            Ok(reads && case.answers.iter().any(|answer| answer & 8 != 0))
        });
        let expected = Case {
            asked: Asked {
                call: 7,
                operations: vec![0x1_0000],
                ..Default::default()
            },
            buffer: vec![],
            answers: vec![8],
        };
        assert_eq!(small.unwrap(), expected);
    }
}
