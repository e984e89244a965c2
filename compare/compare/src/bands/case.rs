//! A table of speed bands, and the clock and frequency that it is asked for.

use std::fmt;

use super::reading::{self, Row};
use crate::answer::Answer;

#[derive(Clone, Debug, PartialEq, Eq)]
pub struct Case {
    pub rows: Vec<Row>,
    /// What stands after the last row and is none.
    pub rest: Vec<u8>,
    pub clock: u32,
    pub frequency: u32,
}

impl Case {
    pub fn table(&self) -> Vec<u8> {
        [reading::table(&self.rows), self.rest.clone()].concat()
    }

    /// The number that loading the table gives.
    pub fn loaded(&self) -> u32 {
        reading::load(&self.table()).map_or_else(|refusal| refusal.0, |_| 0)
    }

    pub fn expected(&self) -> Answer {
        reading::timing(&self.table(), self.clock, self.frequency)
    }
}

/// The rows as the program reads them, then what is no row, and the pair.
impl fmt::Display for Case {
    fn fmt(&self, f: &mut fmt::Formatter) -> fmt::Result {
        for row in &self.rows {
            let [numbers @ .., shape] = row.words();
            let numbers = numbers.map(|number| number.to_string()).join(" ");
            match shape {
                reading::EQUAL => writeln!(f, "    {numbers} equal")?,
                reading::DOUBLE => writeln!(f, "    {numbers} double")?,
                _ => writeln!(f, "    {numbers} and no shape, but 0x{shape:X}")?,
            }
        }
        if !self.rest.is_empty() {
            writeln!(f, "    and then the bytes {:?}", self.rest)?;
        }
        write!(f, "for {} {}", self.clock, self.frequency)
    }
}
