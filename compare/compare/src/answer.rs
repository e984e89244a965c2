//! What both sides answer, and the differences between them.

use std::collections::BTreeMap;
use std::fmt;

use oracle::{unpack, Fields};

/// A TIMINGR word, or why there is none.
pub type Answer = Result<u32, Refusal>;

/// A refusal by the number of document 01 or 02.
#[derive(Clone, Copy, Debug, PartialEq, Eq)]
pub struct Refusal(pub u32);

impl Refusal {
    /// Document 01's words for refusals 1 to 7, and the program's for those of R-4.
    pub fn words(self) -> &'static str {
        match self.0 {
            1 => "no speed",
            2 => "clock over",
            3 => "ratio",
            4 => "clock slow",
            5 => "speed low",
            6 => "no setup",
            7 => "field wide",
            16 => "bad bands",
            17 => "no band",
            _ => "not of the timing",
        }
    }
}

/// An answer as the stored files have it.
pub struct Shown(pub Answer);

impl fmt::Display for Shown {
    fn fmt(&self, f: &mut fmt::Formatter) -> fmt::Result {
        match self.0 {
            Ok(timingr) => {
                let Fields {
                    presc,
                    scldel,
                    sdadel,
                    sclh,
                    scll,
                } = unpack(timingr);
                write!(
                    f,
                    "0x{timingr:08X} presc {presc} scldel {scldel} sdadel {sdadel} \
                     sclh {sclh} scll {scll}"
                )
            }
            Err(refusal) => write!(f, "refused {} {}", refusal.0, refusal.words()),
        }
    }
}

/// Counts differences and keeps the smallest few.
#[derive(Default)]
pub struct Differences {
    count: u64,
    smallest: BTreeMap<u64, String>,
}

impl Differences {
    const SHOWN: usize = 5;

    pub fn count(&self) -> u64 {
        self.count
    }

    /// Holds what was given for an input of this size to what it should be.
    pub fn compare<T: PartialEq>(
        &mut self,
        size: u64,
        expected: T,
        given: T,
        describe: impl FnOnce(T, T) -> String,
    ) {
        if expected != given {
            self.add(size, describe(expected, given));
        }
    }

    /// Adds a difference that an input of this size has.
    pub fn add(&mut self, size: u64, told: String) {
        self.count += 1;
        self.smallest.entry(size).or_insert(told);
        if self.smallest.len() > Self::SHOWN {
            self.smallest.pop_last();
        }
    }

    pub fn print(&self) {
        for difference in self.smallest.values() {
            println!("{difference}");
        }
    }
}
