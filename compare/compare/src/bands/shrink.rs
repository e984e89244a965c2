//! Finding a small table and pair that still show a difference.

use std::io;

use super::case::Case;
use super::reading::{Row, EQUAL};
use crate::shrink;

/// The smallest, of those tried, that differs.
pub fn smallest(case: &Case, differs: impl Fn(&Case) -> bool) -> Case {
    let differs = |case: &Case| io::Result::Ok(differs(case));
    shrink::smallest(case, smaller, differs).expect("nothing is read or written")
}

/// Nothing after the rows, a row less, or a number simpler.
fn smaller(case: &Case, place: usize) -> Option<Case> {
    let mut smaller = case.clone();
    let Some(place) = place.checked_sub(1) else {
        smaller.rest.clear();
        return Some(smaller);
    };
    if place < case.rows.len() {
        smaller.rows.remove(place);
        return Some(smaller);
    }
    let place = place - case.rows.len();
    let (number, simplest) = number(&mut smaller, place / 3)?;
    *number = simpler(*number, simplest, place % 3);
    Some(smaller)
}

/// A number of the case by its place, and the simplest that it may come to.
fn number(case: &mut Case, place: usize) -> Option<(&mut u32, u32)> {
    let row = match place {
        0 => return Some((&mut case.clock, 0)),
        1 => return Some((&mut case.frequency, 0)),
        _ => case.rows.get_mut((place - 2) / 6)?,
    };
    let Row {
        upper_frequency,
        least_clock,
        d,
        sdadel_divisor,
        scldel_divisor,
        shape,
    } = row;
    Some(match (place - 2) % 6 {
        0 => (upper_frequency, 0),
        1 => (least_clock, 0),
        2 => (d, 8),
        3 => (sdadel_divisor, 1),
        4 => (scldel_divisor, 1),
        _ => (shape, EQUAL),
    })
}

/// The simplest number, one half as far from it, or the next towards it.
fn simpler(number: u32, simplest: u32, how: usize) -> u32 {
    let above = number.saturating_sub(simplest);
    simplest
        + match how {
            0 => 0,
            1 => above / 2,
            _ => above.saturating_sub(1),
        }
}

#[cfg(test)]
mod tests {
    use super::*;

    #[test]
    fn what_does_not_matter_goes() {
        let row = |upper_frequency| Row {
            upper_frequency,
            least_clock: 1_000,
            d: 200,
            sdadel_divisor: 30,
            scldel_divisor: 1_000_000,
            shape: 1,
        };
        let case = Case {
            rows: (1..=16).map(|place| row(1_000 * place)).collect(),
            rest: vec![1, 2, 3],
            clock: 123_456_789,
            frequency: 7_654,
        };
        let differs = |case: &Case| case.clock >= 1_234 && case.rows.iter().any(|row| row.d > 64);
        let expected = Case {
            rows: vec![Row {
                upper_frequency: 0,
                least_clock: 0,
                d: 65,
                sdadel_divisor: 1,
                scldel_divisor: 1,
                shape: EQUAL,
            }],
            rest: Vec::new(),
            clock: 1_234,
            frequency: 0,
        };
        assert_eq!(smallest(&case, differs), expected);

        let differs = |case: &Case| case.rest.len() == 3 && case.rows.is_empty();
        let none = Case {
            rows: Vec::new(),
            ..case
        };
        assert_eq!(smallest(&none, differs).rest, [1, 2, 3]);
    }
}
