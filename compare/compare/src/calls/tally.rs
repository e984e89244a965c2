//! How calls came out, counted.

use std::collections::BTreeMap;

use super::generate::LISTED;
use super::known::Known;
use super::run::Run;

/// Document 01's outcome words, in the order of an advance's reports.
pub const WORDS: [&str; 12] = [
    "done",
    "bus",
    "arbitration",
    "nack",
    "stopped",
    "expected-write",
    "expected-read",
    "event-read",
    "event-write",
    "event-stop",
    "waiting",
    "refused",
];

const REFUSED: usize = 11;

/// The place of a word.
pub fn place(word: &str) -> usize {
    let place = WORDS.iter().position(|&it| it == word);
    place.expect("a run has one of the words")
}

/// How often each call came out in each way.
#[derive(Default)]
pub struct Tally {
    pub runs: u64,
    /// By the call's number, then by the place of the word.
    ends: BTreeMap<u32, [u64; WORDS.len()]>,
    refusals: BTreeMap<u32, u64>,
    known: BTreeMap<Known, u64>,
}

impl Tally {
    pub fn count(&mut self, run: &Run) {
        self.add(run.call, place(run.word), run.value, run.known);
    }

    /// Counts a run by the place of its word.
    pub fn add(&mut self, call: u32, word: usize, value: u32, known: Option<Known>) {
        self.runs += 1;
        self.ends.entry(call).or_default()[word] += 1;
        if word == REFUSED {
            *self.refusals.entry(value).or_default() += 1;
        }
        if let Some(known) = known {
            *self.known.entry(known).or_default() += 1;
        }
    }

    fn ended(&self, call: u32) -> [u64; WORDS.len()] {
        self.ends.get(&call).copied().unwrap_or_default()
    }

    pub fn print(&self) {
        print!("{:>5}", "call");
        for word in WORDS {
            print!("{word:>15}");
        }
        println!();
        for call in LISTED {
            print!("{call:>5}");
            for count in self.ended(call) {
                print!("{count:>15}");
            }
            println!();
        }
        let listed: u64 = LISTED.iter().flat_map(|&call| self.ended(call)).sum();
        println!("unlisted: {}", self.runs - listed);
        for (refusal, count) in &self.refusals {
            println!("refusal {refusal}: {count}");
        }
        for known in Known::ALL {
            let count = self.known.get(&known).copied().unwrap_or_default();
            println!("{}: {count}", known.words());
        }
    }

    /// Whether every listed call was accepted, and every outcome, every refusal of a begin and every
    /// known difference came up.
    pub fn all_reached(&self) -> bool {
        let accepted = |call| self.ended(call)[..REFUSED].iter().any(|&count| count > 0);
        let calls = LISTED.into_iter().all(accepted);
        let came = |word: usize| LISTED.iter().any(|&call| self.ended(call)[word] > 0);
        let words = (0..WORDS.len()).all(came);
        let refusals = [8, 10, 11, 12]
            .iter()
            .all(|refusal| self.refusals.contains_key(refusal));
        let known = Known::ALL.iter().all(|it| self.known.contains_key(it));
        calls && words && refusals && known
    }
}

#[cfg(test)]
mod tests {
    use super::*;

    #[test]
    fn each_known_difference_has_to_come_up() {
        let reached = |known: &[Known]| {
            let mut tally = Tally::default();
            for call in LISTED {
                (0..REFUSED).for_each(|word| tally.add(call, word, 0, None));
            }
            for refusal in [8, 10, 11, 12] {
                tally.add(7, REFUSED, refusal, None);
            }
            for &known in known {
                tally.add(24, 8, 0x78, Some(known));
            }
            tally.all_reached()
        };
        assert!(reached(&Known::ALL));
        for missing in Known::ALL {
            let others = Known::ALL.into_iter().filter(|&it| it != missing);
            assert!(!reached(&others.collect::<Vec<Known>>()), "{missing:?}");
        }
    }
}
