//! What was compared, counted.

use super::case::Case;
use super::reading::{self, Row, Worked, DOUBLE, EQUAL, ROWS};
use crate::answer::Answer;
use crate::pairs::MOST_CLOCK;

/// What is wrong with a table.
#[derive(Clone, Copy, Debug, PartialEq, Eq)]
enum Fault {
    NoRow,
    /// So many rows.
    Rows(usize),
    /// So many bytes after the rows.
    Rest(usize),
    /// An upper frequency as high as the one before, or lower, in the row at this place. Likewise
    /// the others.
    Same(usize),
    Falling(usize),
    D(usize, u32),
    SdadelDivisor(usize),
    ScldelDivisor(usize),
    Shape(usize, u32),
}

impl Fault {
    fn place(self) -> Option<usize> {
        match self {
            Fault::NoRow | Fault::Rows(_) | Fault::Rest(_) => None,
            Fault::Same(place)
            | Fault::Falling(place)
            | Fault::D(place, _)
            | Fault::SdadelDivisor(place)
            | Fault::ScldelDivisor(place)
            | Fault::Shape(place, _) => Some(place),
        }
    }
}

fn faults(case: &Case) -> Vec<Fault> {
    let mut faults = Vec::new();
    let mut add = |is_there: bool, fault| faults.extend(is_there.then_some(fault));
    let (rows, rest) = (case.rows.len(), case.rest.len());
    add(rows == 0 && rest == 0, Fault::NoRow);
    add(rows > ROWS, Fault::Rows(rows));
    add(rest > 0, Fault::Rest(rest));
    for (place, row) in case.rows.iter().enumerate() {
        let upper = row.upper_frequency;
        if place > 0 {
            let before = case.rows[place - 1].upper_frequency;
            add(upper == before, Fault::Same(place));
            add(upper < before, Fault::Falling(place));
        }
        add(row.d < 8 || row.d > 256, Fault::D(place, row.d));
        add(row.sdadel_divisor == 0, Fault::SdadelDivisor(place));
        add(row.scldel_divisor == 0, Fault::ScldelDivisor(place));
        add(row.shape > DOUBLE, Fault::Shape(place, row.shape));
    }
    faults
}

/// A case with what came of it.
struct Seen<'a> {
    case: &'a Case,
    faults: Vec<Fault>,
    /// The number of the refusal, 0 for a timing.
    number: u32,
    /// The place of the row for the frequency, in a bad table too.
    place: Option<usize>,
}

impl<'a> Seen<'a> {
    fn of(case: &'a Case, answer: Answer) -> Self {
        Seen {
            case,
            faults: faults(case),
            number: answer.map_or_else(|refusal| refusal.0, |_| 0),
            place: reading::chosen(&case.rows, case.frequency),
        }
    }

    /// Whether the table is accepted and has so many rows.
    fn has_rows(&self, count: usize) -> bool {
        self.faults.is_empty() && self.case.rows.len() == count
    }

    /// Whether the table is accepted and has such a row.
    fn has_row(&self, is: impl Fn(&Row) -> bool) -> bool {
        self.faults.is_empty() && self.case.rows.iter().any(is)
    }

    fn has_neighbours(&self) -> bool {
        let neighbours = |pair: &[Row]| pair[1].upper_frequency - pair[0].upper_frequency == 1;
        self.faults.is_empty() && self.case.rows.windows(2).any(neighbours)
    }

    /// Whether this alone is wrong with the table.
    fn has_fault(&self, is: impl Fn(Fault) -> bool) -> bool {
        self.faults.len() == 1 && is(self.faults[0])
    }

    /// Whether one row alone is wrong, and how it stands to the one for the frequency.
    fn has_fault_at(&self, is: impl Fn(usize, usize) -> bool) -> bool {
        let is_at = |fault: Fault| fault.place().zip(self.place).is_some_and(|(a, b)| is(a, b));
        self.has_fault(is_at)
    }

    /// Whether the pair came out so, with a clock that is over.
    fn is_over(&self, number: u32) -> bool {
        self.number == number && self.case.clock > MOST_CLOCK
    }

    /// Whether it came out so, with a frequency that is so much above the last row.
    fn is_above(&self, number: u32, is: impl Fn(u32) -> bool) -> bool {
        let last = self.case.rows.last();
        let above = last.and_then(|row| self.case.frequency.checked_sub(row.upper_frequency));
        self.number == number && above.is_some_and(|above| above > 0 && is(above))
    }

    fn has_ratio(&self, number: u32, is: impl Fn(u32) -> bool) -> bool {
        let ratio = self.case.clock.checked_div(self.case.frequency);
        self.number == number && ratio.is_some_and(is)
    }

    /// Whether it came out so in such a row.
    fn row(&self, number: u32, is: impl Fn(&Row) -> bool) -> bool {
        let row = self.place.map(|place| &self.case.rows[place]);
        self.number == number && row.is_some_and(is)
    }

    /// Whether it came out so by what was worked out in a row of this shape.
    fn shape(&self, shape: u32, number: u32, is: impl Fn(&Worked) -> bool) -> bool {
        let (clock, frequency) = (self.case.clock, self.case.frequency);
        self.row(number, |row| {
            row.shape == shape && is(&Worked::of(row, clock, frequency))
        })
    }

    fn equal(&self, number: u32, is: impl Fn(&Worked) -> bool) -> bool {
        self.shape(EQUAL, number, is)
    }

    fn double(&self, number: u32, is: impl Fn(&Worked) -> bool) -> bool {
        self.shape(DOUBLE, number, is)
    }

    /// Whether there is a timing by such quotients.
    fn timing(&self, is: impl Fn(&Worked) -> bool) -> bool {
        self.equal(0, &is) || self.double(0, &is)
    }
}

/// Whether a number of more than eight bits would pass for a prescaler without the others.
fn has_small_low_byte(prescaler: u64) -> bool {
    prescaler > 256 && (1..=16).contains(&(prescaler % 256))
}

/// A kind of table or answer: how it is told, and how it is known.
type Kind = (&'static str, fn(&Seen) -> bool);

const ACCEPTED: &[Kind] = &[
    ("accepted tables", |it| it.faults.is_empty()),
    ("accepted: one row", |it| it.has_rows(1)),
    ("accepted: 16 rows", |it| it.has_rows(16)),
    ("accepted: upper frequency 0", |it| {
        it.has_row(|row| row.upper_frequency == 0)
    }),
    ("accepted: upper frequency 4294967295", |it| {
        it.has_row(|row| row.upper_frequency == u32::MAX)
    }),
    ("accepted: upper frequencies next to each other", |it| {
        it.has_neighbours()
    }),
    ("accepted: least clock 0", |it| {
        it.has_row(|row| row.least_clock == 0)
    }),
    ("accepted: least clock 4294967295", |it| {
        it.has_row(|row| row.least_clock == u32::MAX)
    }),
    ("accepted: d 8", |it| it.has_row(|row| row.d == 8)),
    ("accepted: d 256", |it| it.has_row(|row| row.d == 256)),
    ("accepted: sdadel divisor 1", |it| {
        it.has_row(|row| row.sdadel_divisor == 1)
    }),
    ("accepted: scldel divisor 1", |it| {
        it.has_row(|row| row.scldel_divisor == 1)
    }),
];

/// Tables that are refused for one thing alone, and those that 1, 2 or 17 would fit too.
const BAD: &[Kind] = &[
    ("refused as 16", |it| it.number == 16),
    ("16: no row", |it| it.has_fault(|it| it == Fault::NoRow)),
    ("16: 17 rows", |it| it.has_fault(|it| it == Fault::Rows(17))),
    ("16: more rows", |it| {
        it.has_fault(|it| matches!(it, Fault::Rows(18..)))
    }),
    ("16: words that are no whole row", |it| {
        it.has_fault(|it| matches!(it, Fault::Rest(bytes) if bytes % 4 == 0))
    }),
    ("16: bytes that are no whole word", |it| {
        it.has_fault(|it| matches!(it, Fault::Rest(bytes) if bytes % 4 != 0))
    }),
    ("16: an upper frequency like the one before", |it| {
        it.has_fault(|it| matches!(it, Fault::Same(_)))
    }),
    ("16: an upper frequency lower than the one before", |it| {
        it.has_fault(|it| matches!(it, Fault::Falling(_)))
    }),
    ("16: d 7", |it| {
        it.has_fault(|it| matches!(it, Fault::D(_, 7)))
    }),
    ("16: d 257", |it| {
        it.has_fault(|it| matches!(it, Fault::D(_, 257)))
    }),
    ("16: a wide d whose low bits are allowed", |it| {
        it.has_fault(|it| matches!(it, Fault::D(_, 264 | 0x0001_0040)))
    }),
    ("16: sdadel divisor 0", |it| {
        it.has_fault(|it| matches!(it, Fault::SdadelDivisor(_)))
    }),
    ("16: scldel divisor 0", |it| {
        it.has_fault(|it| matches!(it, Fault::ScldelDivisor(_)))
    }),
    ("16: shape 2", |it| {
        it.has_fault(|it| matches!(it, Fault::Shape(_, 2)))
    }),
    ("16: shape 0xFFFFFFFF", |it| {
        it.has_fault(|it| matches!(it, Fault::Shape(_, u32::MAX)))
    }),
    ("16: a wide shape whose low bits are one", |it| {
        it.has_fault(|it| matches!(it, Fault::Shape(_, shape) if shape % 256 <= DOUBLE))
    }),
    ("16: the row for the frequency", |it| {
        it.has_fault_at(|wrong, row| wrong == row)
    }),
    ("16: a row before the one for the frequency", |it| {
        it.has_fault_at(|wrong, row| wrong < row)
    }),
    ("16: a row after the one for the frequency", |it| {
        it.has_fault_at(|wrong, row| wrong > row)
    }),
    ("16, and the frequency is 0", |it| {
        it.number == 16 && it.case.frequency == 0
    }),
    ("16, and the clock is over", |it| it.is_over(16)),
    ("16, and the frequency is above the last row", |it| {
        it.is_above(16, |_| true)
    }),
];

/// What accepted tables give, and refusals that the next one would fit too.
const ANSWERS: &[Kind] = &[
    ("timings in equal rows", |it| it.equal(0, |_| true)),
    ("timings in double rows", |it| it.double(0, |_| true)),
    ("refused as 1", |it| it.number == 1),
    ("1, and the clock is over", |it| it.is_over(1)),
    ("refused as 2", |it| it.number == 2),
    ("2, and the frequency is above the last row", |it| {
        it.is_above(2, |_| true)
    }),
    ("refused as 17", |it| it.number == 17),
    ("17, and the ratio is below 4", |it| {
        it.has_ratio(17, |ratio| ratio < 4)
    }),
    ("refused as 3 in equal rows", |it| {
        it.row(3, |row| row.shape == EQUAL)
    }),
    ("refused as 3 in double rows", |it| {
        it.row(3, |row| row.shape == DOUBLE)
    }),
    ("3, and the clock is below the least", |it| {
        it.row(3, |row| it.case.clock < row.least_clock)
    }),
    ("refused as 4 in equal rows", |it| it.equal(4, |_| true)),
    ("refused as 4 in double rows", |it| it.double(4, |_| true)),
    ("4, and a half is above 255", |it| {
        it.equal(4, |it| it.longest_half() > 255)
    }),
    ("4, and the prescaler of a double row is over 16", |it| {
        it.double(4, |it| it.prescaler > 16)
    }),
    ("4, and there is no setup time", |it| {
        it.equal(4, |it| it.scldel_quotient == 0) || it.double(4, |it| it.scldel_quotient == 0)
    }),
    ("refused as 5 in equal rows", |it| it.equal(5, |_| true)),
    ("refused as 5 in double rows", |it| it.double(5, |_| true)),
    ("5, and there is no setup time in an equal row", |it| {
        it.equal(5, |it| it.scldel_quotient == 0)
    }),
    ("5, and there is no setup time in a double row", |it| {
        it.double(5, |it| it.scldel_quotient == 0)
    }),
    ("refused as 6 in equal rows", |it| it.equal(6, |_| true)),
    ("refused as 6 in double rows", |it| it.double(6, |_| true)),
];

/// The borders of the rule from both sides. Only in an equal row, where the prescaler is held, can
/// a half come above 255: in a double row c is at most d.
const BORDERS: &[Kind] = &[
    ("timing: at the row's upper frequency", |it| {
        it.row(0, |row| it.case.frequency == row.upper_frequency)
    }),
    ("timing: one below the row's upper frequency", |it| {
        it.row(0, |row| row.upper_frequency - it.case.frequency == 1)
    }),
    ("timing: one above the upper frequency before", |it| {
        let before = it.place.and_then(|place| place.checked_sub(1));
        let before = before.map(|place| it.case.rows[place].upper_frequency);
        it.number == 0 && before == Some(it.case.frequency - 1)
    }),
    ("17: one above the last row", |it| {
        it.is_above(17, |above| above == 1)
    }),
    ("timing: clock 250000000", |it| {
        it.number == 0 && it.case.clock == MOST_CLOCK
    }),
    ("2: clock 250000001", |it| {
        it.number == 2 && it.case.clock == MOST_CLOCK + 1
    }),
    ("timing: ratio 4", |it| it.has_ratio(0, |ratio| ratio == 4)),
    ("3: ratio 3", |it| it.has_ratio(3, |ratio| ratio == 3)),
    ("timing: at the least clock", |it| {
        it.row(0, |row| it.case.clock == row.least_clock)
    }),
    ("timing: one above the least clock", |it| {
        it.row(0, |row| it.case.clock - row.least_clock == 1)
    }),
    ("4: one below the least clock", |it| {
        it.row(4, |row| row.least_clock - it.case.clock == 1)
    }),
    ("timing: prescaler 16 in an equal row", |it| {
        it.equal(0, |it| it.prescaler == 16)
    }),
    ("timing: prescaler 17, held in an equal row", |it| {
        it.equal(0, |it| it.prescaler == 17)
    }),
    ("timing: prescaler 257 to 272 and their like, held", |it| {
        it.equal(0, |it| has_small_low_byte(it.prescaler))
    }),
    ("timing: prescaler 16 in a double row", |it| {
        it.double(0, |it| it.prescaler == 16)
    }),
    ("5: prescaler 17 in a double row", |it| {
        it.double(5, |it| it.prescaler == 17)
    }),
    ("5: prescaler 257 to 272 and their like", |it| {
        it.double(5, |it| has_small_low_byte(it.prescaler))
    }),
    ("timing: a half of 255", |it| {
        it.equal(0, |it| it.longest_half() == 255)
    }),
    ("5: a half of 256", |it| {
        it.equal(5, |it| it.longest_half() == 256)
    }),
    ("5: a half above 511", |it| {
        it.equal(5, |it| it.longest_half() > 511)
    }),
    ("timing: scldel quotient 1 in an equal row", |it| {
        it.equal(0, |it| it.scldel_quotient == 1)
    }),
    ("timing: scldel quotient 1 in a double row", |it| {
        it.double(0, |it| it.scldel_quotient == 1)
    }),
    ("timing: scldel quotient 5", |it| {
        it.timing(|it| it.scldel_quotient == 5)
    }),
    ("timing: scldel quotient 6", |it| {
        it.timing(|it| it.scldel_quotient == 6)
    }),
    ("timing: scldel quotient 16", |it| {
        it.timing(|it| it.scldel_quotient == 16)
    }),
    ("timing: scldel quotient 17", |it| {
        it.timing(|it| it.scldel_quotient == 17)
    }),
    ("timing: a scldel quotient above 256", |it| {
        it.timing(|it| it.scldel_quotient > 256)
    }),
    ("timing: sdadel quotient 0", |it| {
        it.timing(|it| it.sdadel_quotient == 0)
    }),
    ("timing: sdadel quotient 1", |it| {
        it.timing(|it| it.sdadel_quotient == 1)
    }),
    ("timing: sdadel quotient 15", |it| {
        it.timing(|it| it.sdadel_quotient == 15)
    }),
    ("timing: sdadel quotient 16", |it| {
        it.timing(|it| it.sdadel_quotient == 16)
    }),
    ("timing: a sdadel quotient above 255", |it| {
        it.timing(|it| it.sdadel_quotient > 255)
    }),
];

fn kinds() -> impl Iterator<Item = &'static Kind> {
    [ACCEPTED, BAD, ANSWERS, BORDERS].into_iter().flatten()
}

pub struct Reached {
    pub cases: u64,
    /// How many cases were of each kind.
    counts: Vec<u64>,
}

impl Default for Reached {
    fn default() -> Self {
        Reached {
            cases: 0,
            counts: kinds().map(|_| 0).collect(),
        }
    }
}

impl Reached {
    /// A case that was compared, and its answer.
    pub fn count(&mut self, case: &Case, answer: Answer) {
        self.cases += 1;
        let seen = Seen::of(case, answer);
        for (count, (_, is)) in self.counts.iter_mut().zip(kinds()) {
            *count += u64::from(is(&seen));
        }
    }

    pub fn print(&self) {
        for (count, (what, _)) in self.counts.iter().zip(kinds()) {
            println!("{what}: {count}");
        }
    }

    /// What no case was.
    pub fn missing(&self) -> Vec<&'static str> {
        let counted = self.counts.iter().zip(kinds());
        let missing = counted.filter(|(count, _)| **count == 0);
        missing.map(|(_, (what, _))| *what).collect()
    }
}

#[cfg(test)]
mod tests {
    use super::*;
    use crate::bands::{examples, generate};
    use crate::random::Random;

    fn counted(cases: impl IntoIterator<Item = Case>) -> Reached {
        let mut reached = Reached::default();
        for case in cases {
            reached.count(&case, case.expected());
        }
        reached
    }

    #[test]
    fn each_kind_is_missed_until_it_was_there() {
        assert_eq!(counted([]).missing().len(), kinds().count());
        let reached = counted(examples::cases().into_iter().map(|(case, _)| case));
        let missing = reached.missing();
        assert!(!missing.contains(&"timing: a half of 255"));
        assert!(!missing.contains(&"17, and the ratio is below 4"));
        assert!(!missing.contains(&"16: an upper frequency like the one before"));
        assert!(missing.contains(&"3: ratio 3"));
    }

    #[test]
    fn random_cases_reach_every_kind() {
        let mut random = Random::new(2);
        let reached = counted((0..20_000).map(|_| generate::case(&mut random)));
        assert_eq!(reached.missing(), [""; 0]);
    }

    #[test]
    fn a_table_is_refused_where_something_is_wrong() {
        let mut random = Random::new(3);
        for _ in 0..5_000 {
            let case = generate::case(&mut random);
            let wrong = !faults(&case).is_empty();
            assert_eq!(case.loaded() != 0, wrong, "{case}");
        }
    }
}
