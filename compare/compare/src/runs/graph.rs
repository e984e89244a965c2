//! Every state that a call comes to with the words that are tried, and from each state every word.
//!
//! Two runs are in one state if their saved calls, but for the count of accesses, and their buffers
//! are the same. Only the first run that comes to a state is followed, so that polls do not multiply
//! and calls are gone through to their ends.

use std::collections::hash_map::DefaultHasher;
use std::collections::HashSet;
use std::hash::{Hash, Hasher};

use super::check::Input;
use super::progress::Stop;
use super::words;
use super::Comparison;
use crate::calls::case::Case;
use crate::rattle::{saved, WAITING};

/// One run in so many is cut at random too.
const CUT: u64 = 8;

/// A state, by the answer that led there and the state before.
struct State {
    before: usize,
    answer: u32,
    awaited: u32,
    saved: [u8; crate::rattle::SAVED],
}

/// Goes through all states of a call, and gives their number.
pub fn all(comparison: &mut Comparison, case: &Case) -> Result<usize, Stop> {
    let mut known = HashSet::new();
    let mut states: Vec<State> = Vec::new();
    let mut answers = Vec::new();
    let mut visit = |states: &mut Vec<State>, before, answers: &[u32]| {
        let input = Input {
            asked: &case.asked,
            buffer: &case.buffer,
            answers,
        };
        let cuts = comparison.progress.runs.is_multiple_of(CUT);
        let ended = comparison.check(input, cuts)?;
        let (_, buffer) = comparison.checker.last();
        if ended.report == WAITING && known.insert(key(&ended.saved, buffer)) {
            states.push(State {
                before,
                answer: answers.last().copied().unwrap_or(0),
                awaited: ended.awaited,
                saved: ended.saved,
            });
        }
        Ok(())
    };
    visit(&mut states, 0, &[])?;
    let mut at = 0;
    while let Some(state) = states.get(at) {
        let tried = words::of(state.awaited, &state.saved);
        path(&states, at, &mut answers);
        for word in tried {
            answers.push(word);
            visit(&mut states, at, &answers)?;
            answers.pop();
        }
        at += 1;
    }
    Ok(states.len())
}

/// The answers that lead to a state.
fn path(states: &[State], mut at: usize, answers: &mut Vec<u32>) {
    answers.clear();
    while at > 0 {
        answers.push(states[at].answer);
        at = states[at].before;
    }
    answers.reverse();
}

fn key(state: &[u8], buffer: &[u8]) -> u64 {
    let mut hasher = DefaultHasher::new();
    state[..4 * saved::ACCESSES].hash(&mut hasher);
    state[4 * saved::OUTCOME..].hash(&mut hasher);
    buffer.hash(&mut hasher);
    hasher.finish()
}
