//! That the comparison finds mistakes: the rule once more, with one of them at a time.

use super::reached::Reached;
use super::{check, examples, first_difference, shrink, Difference, Functions};
use crate::rattle::word;

/// How many random cases a mistake is to be found in.
const CASES: u64 = 20_000;

#[derive(Clone, Copy, Debug, PartialEq, Eq)]
enum Mistake {
    None,
    RowChosenByLess,
    PrescalerHeldInDouble,
    PrescalerRefusedInEqual,
    HalfUntested,
    NoBandAfterRatio,
    NoBandBeforeClock,
    ClockSlowBeforeRatio,
    DivisorsSwapped,
    SetupBy500000,
    SetupInEqualOnly,
    SetupBeforeSpeed,
    PrescalerCutToByte,
    HalfCutToByte,
    DelayCutToByte,
    SpeedBeforeTable,
    RowsAfterUnseen,
    WordLeftByRefusal,
}

const MISTAKES: [Mistake; 17] = [
    Mistake::RowChosenByLess,
    Mistake::PrescalerHeldInDouble,
    Mistake::PrescalerRefusedInEqual,
    Mistake::HalfUntested,
    Mistake::NoBandAfterRatio,
    Mistake::NoBandBeforeClock,
    Mistake::ClockSlowBeforeRatio,
    Mistake::DivisorsSwapped,
    Mistake::SetupBy500000,
    Mistake::SetupInEqualOnly,
    Mistake::SetupBeforeSpeed,
    Mistake::PrescalerCutToByte,
    Mistake::HalfCutToByte,
    Mistake::DelayCutToByte,
    Mistake::SpeedBeforeTable,
    Mistake::RowsAfterUnseen,
    Mistake::WordLeftByRefusal,
];

type Row = [u64; 6];

impl Mistake {
    fn rows(table: &[u8]) -> Vec<Row> {
        let row = |bytes: &[u8]| [0, 1, 2, 3, 4, 5].map(|place| u64::from(word(bytes, place)));
        table.chunks_exact(24).map(row).collect()
    }

    fn is_bad(table: &[u8]) -> bool {
        let rows = Self::rows(table);
        let is_wrong = |&[_, _, d, sdadel, scldel, shape]: &Row| {
            !(8..=256).contains(&d) || sdadel == 0 || scldel == 0 || shape > 1
        };
        !table.len().is_multiple_of(24)
            || rows.is_empty()
            || rows.len() > 16
            || rows.iter().any(is_wrong)
            || rows.windows(2).any(|pair| pair[0][0] >= pair[1][0])
    }

    /// The number and the word.
    fn timing(self, table: &[u8], clock: u64, frequency: u64) -> (u32, u64) {
        let rows = Self::rows(table);
        let place = rows.iter().position(|row| match self {
            Mistake::RowChosenByLess => frequency < row[0],
            _ => frequency <= row[0],
        });
        let seen = match (self, place) {
            (Mistake::RowsAfterUnseen, Some(place)) => &table[..24 * (place + 1)],
            _ => table,
        };
        let bad = (Self::is_bad(seen), 16);
        let no_speed = (frequency == 0, 1);
        let over = (clock > 250_000_000, 2);
        let no_band = (place.is_none(), 17);
        let ratio = (clock < 4 * frequency, 3);
        let order = match self {
            Mistake::SpeedBeforeTable => [no_speed, bad, over, no_band, ratio],
            Mistake::NoBandBeforeClock => [bad, no_speed, no_band, over, ratio],
            Mistake::NoBandAfterRatio => [bad, no_speed, over, ratio, no_band],
            Mistake::ClockSlowBeforeRatio => [bad, no_speed, over, no_band, (false, 0)],
            _ => [bad, no_speed, over, no_band, ratio],
        };
        match order.into_iter().find(|(is_given, _)| *is_given) {
            Some((_, number)) => (number, 0),
            None => self.in_row(rows[place.expect("there is a row")], clock, frequency),
        }
    }

    fn in_row(self, row: Row, clock: u64, frequency: u64) -> (u32, u64) {
        let [_, least, d, for_sdadel, for_scldel, shape] = row;
        let ratio = clock / frequency;
        if clock < least {
            return (4, 0);
        }
        if ratio < 4 {
            return (3, 0);
        }
        let equal = shape == 0;
        let mut p = (ratio - 1) / d + 1;
        if self == Mistake::PrescalerCutToByte {
            // The field has one less, and 256 would be no prescaler.
            p = (p - 1) % 256 + 1;
        }
        if equal && self != Mistake::PrescalerRefusedInEqual
            || self == Mistake::PrescalerHeldInDouble
        {
            p = p.min(16);
        }
        let c = ratio / p;
        let (mut sclh, mut scll) = match equal {
            true => (c / 2 - 1, c / 2 - 1),
            false => (c / 3 - 1, c / 3 * 2 - 1),
        };
        if self == Mistake::HalfCutToByte {
            (sclh, scll) = (sclh % 256, scll % 256);
        }
        let (for_sdadel, for_scldel) = match self {
            Mistake::DivisorsSwapped => (for_scldel, for_sdadel),
            _ => (for_sdadel, for_scldel),
        };
        let [mut sdadel, scldel] = [for_sdadel, for_scldel].map(|divisor| clock / divisor / p);
        let low = p > 16 || sclh.max(scll) > 255 && self != Mistake::HalfUntested;
        let no_setup = match self {
            Mistake::SetupBy500000 => clock / 500_000 / p == 0,
            Mistake::SetupInEqualOnly => equal && scldel == 0,
            _ => scldel == 0,
        };
        let mut scldel = scldel.saturating_sub(1);
        if self == Mistake::DelayCutToByte {
            (sdadel, scldel) = (sdadel % 256, scldel % 256);
        }
        let word = ((p - 1) % 16) << 28
            | scldel.clamp(4, 15) << 20
            | sdadel.clamp(1, 15) << 16
            | (sclh % 256) << 8
            | (scll % 256);
        let left = match self {
            Mistake::WordLeftByRefusal => word,
            _ => 0,
        };
        match (low, no_setup) {
            (true, true) if self == Mistake::SetupBeforeSpeed => (6, left),
            (true, _) => (5, left),
            (false, true) => (6, left),
            (false, false) => (0, word),
        }
    }
}

impl Functions for Mistake {
    fn load_bands(&self, table: &[u8]) -> u32 {
        if Mistake::is_bad(table) {
            16
        } else {
            0
        }
    }

    fn timing_by_bands(&self, table: &[u8], clock: u32, frequency: u32, timingr: &mut u32) -> u32 {
        let (number, word) = self.timing(table, clock.into(), frequency.into());
        *timingr = word as u32;
        number
    }
}

fn found(functions: &impl Functions) -> Option<Difference> {
    first_difference(CASES, 1, functions, &mut Reached::default())
}

#[test]
fn without_a_mistake_there_is_no_difference() {
    assert!(found(&Mistake::None).is_none());
    for (case, answer) in examples::cases() {
        assert_eq!(check(&case, answer, 0, &Mistake::None), Ok(()), "{case}");
    }
}

#[test]
fn every_mistake_is_found_and_shown_by_a_small_table() {
    for mistake in MISTAKES {
        let difference = found(&mistake);
        let Difference { case, shift } = difference.unwrap_or_else(|| panic!("{mistake:?}"));
        let differs = |case: &_| check(case, case.expected(), shift, &mistake).is_err();
        let smallest = shrink::smallest(&case, differs);
        assert!(smallest.rows.len() <= 2, "{mistake:?}: {smallest}");
    }
}

/// What loading gives, other than it should.
struct Loads(fn(&[u8]) -> u32);

impl Functions for Loads {
    fn load_bands(&self, table: &[u8]) -> u32 {
        self.0(table)
    }

    fn timing_by_bands(&self, table: &[u8], clock: u32, frequency: u32, timingr: &mut u32) -> u32 {
        Mistake::None.timing_by_bands(table, clock, frequency, timingr)
    }
}

#[test]
fn wrong_answers_of_loading_are_found() {
    let wrong: [fn(&[u8]) -> u32; 4] = [
        |_| 0,
        |_| 16,
        |table| Mistake::None.load_bands(table) / 16,
        // The bytes after the last whole row are not looked at.
        |table| Mistake::None.load_bands(&table[..table.len() / 24 * 24]),
    ];
    for load in wrong {
        assert!(found(&Loads(load)).is_some());
    }
}
