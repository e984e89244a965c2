//! Random tables with a clock and a frequency. A pair is made first, at or near a border of the
//! rule, and then a row that it falls into, whose own limits lie near the pair; other rows stand
//! around it. A quarter of the tables is damaged, and some have too many rows.

use std::collections::BTreeSet;

use super::case::Case;
use super::reading::{Row, DOUBLE, EQUAL, ROW, ROWS};
use crate::pairs::MOST_CLOCK;
use crate::random::Random;

/// Quotients on both sides of where sdadel is held, and one whose low byte is small.
const SDADEL_QUOTIENTS: [u32; 6] = [0, 1, 2, 15, 16, 257];

/// Likewise scldel, which is one less; and of 0 there is refusal 6.
const SCLDEL_QUOTIENTS: [u32; 9] = [0, 0, 1, 1, 5, 6, 16, 17, 257];

/// Numbers that are no shape; the low bits of some are one.
const NO_SHAPES: [u32; 7] = [2, 3, u32::MAX, 0x100, 0x101, 0x0001_0000, 0x8000_0001];

/// Numbers that d may not have; the low bits of some are allowed.
const NO_DS: [u32; 8] = [0, 7, 257, 7, 257, 264, 0x0001_0040, u32::MAX];

pub fn case(random: &mut Random) -> Case {
    let mut case = aimed(random);
    match random.up_to(19) {
        0 => case.frequency = 0,
        1 => case.frequency = above(&case, random),
        2 | 3 => case.frequency = near_a_row(&case, random),
        4 => case.clock = any_clock(random),
        5 => (case.clock, case.frequency) = (random.of_length(32), random.of_length(32)),
        _ => {}
    }
    if random.up_to(3) == 0 {
        damage(&mut case, random);
    }
    case
}

/// A pair, and a table with a row for it. The table is accepted unless it has too many rows.
fn aimed(random: &mut Random) -> Case {
    let d = any_d(random);
    let shape = random.pick(&[EQUAL, DOUBLE]);
    let ratio = ratio(d, random);
    let frequency = frequency(ratio, random);
    let clock = clock(ratio, frequency, random);
    let steps = (clock / frequency).saturating_sub(1) / d + 1;
    let p = if shape == EQUAL { steps.min(16) } else { steps };
    let row = Row {
        upper_frequency: upper_frequency(frequency, random),
        least_clock: least_clock(clock, random),
        d,
        sdadel_divisor: divisor(clock / p, &SDADEL_QUOTIENTS, random),
        scldel_divisor: divisor(clock / p, &SCLDEL_QUOTIENTS, random),
        shape,
    };
    Case {
        rows: rows_around(row, frequency, random),
        rest: Vec::new(),
        clock,
        frequency,
    }
}

fn any_d(random: &mut Random) -> u32 {
    match random.up_to(3) {
        0 => random.pick(&[8, 256]),
        1 => random.pick(&[64, 96, 128]),
        _ => 8 + random.up_to(248),
    }
}

/// A ratio: at refusal 3, where the prescaler steps or passes 16, where the half of an equal row
/// passes 255, where the prescaler's low byte begins anew, or some other.
fn ratio(d: u32, random: &mut Random) -> u32 {
    let next = random.up_to(1);
    match random.up_to(11) {
        0 => 3 + next,
        1 | 2 => d * (1 + random.up_to(16)) + next,
        3 | 4 => 16 * d + next,
        5 => random.pick(&[8_207, 8_208, 8_223, 8_224]),
        6 => d * (255 + random.up_to(17)) + next,
        7 => random.of_length(28),
        _ => 4 + random.up_to(16 * d),
    }
}

/// A frequency, mostly one that leaves the clock of this ratio within its limit.
fn frequency(ratio: u32, random: &mut Random) -> u32 {
    let most = MOST_CLOCK / ratio.max(1);
    let frequency = match random.up_to(9) {
        0 => random.of_length(32),
        1..=5 => random.up_to(most),
        _ => random.of_length(28).min(most),
    };
    frequency.max(1)
}

/// A clock of this ratio.
fn clock(ratio: u32, frequency: u32, random: &mut Random) -> u32 {
    let within = random.up_to(frequency - 1);
    let more = random.pick(&[0, frequency - 1, within]);
    let clock = u64::from(ratio) * u64::from(frequency) + u64::from(more);
    clock.try_into().unwrap_or(u32::MAX)
}

fn any_clock(random: &mut Random) -> u32 {
    let any = random.word();
    random.pick(&[
        0,
        1,
        MOST_CLOCK - 1,
        MOST_CLOCK,
        MOST_CLOCK,
        MOST_CLOCK + 1,
        u32::MAX,
        any,
    ])
}

/// Mostly at the frequency or next to it: one below leaves it to the row after.
fn upper_frequency(frequency: u32, random: &mut Random) -> u32 {
    match random.up_to(7) {
        0 | 1 => frequency,
        2 => frequency.saturating_add(1),
        3 => frequency - 1,
        4 => u32::MAX,
        _ => frequency.saturating_add(random.of_length(24)),
    }
}

/// Mostly one that lets the clock pass.
fn least_clock(clock: u32, random: &mut Random) -> u32 {
    match random.up_to(11) {
        0 | 1 => clock,
        2 => clock.saturating_add(1),
        3 => clock.saturating_sub(1),
        4 => random.of_length(28),
        5 => random.pick(&[MOST_CLOCK, MOST_CLOCK + 1, u32::MAX]),
        _ => 0,
    }
}

/// A divisor that gives this number one of these quotients, or some other.
fn divisor(number: u32, quotients: &[u32], random: &mut Random) -> u32 {
    let divisor = match random.up_to(9) {
        0..=6 => match random.pick(quotients) {
            0 => number.saturating_add(1),
            quotient => number / quotient,
        },
        _ => any_divisor(random),
    };
    divisor.max(1)
}

fn any_divisor(random: &mut Random) -> u32 {
    match random.up_to(5) {
        0 => random.pick(&[1, 1, MOST_CLOCK, MOST_CLOCK + 1, u32::MAX]),
        1 => random.of_length(28).max(1),
        _ => random.pick(&[250_000, 500_000, 800_000, 1_000_000, 3_000_000]),
    }
}

/// The row among others, none of which takes the frequency from it.
fn rows_around(row: Row, frequency: u32, random: &mut Random) -> Vec<Row> {
    let count = match random.up_to(19) {
        0..=2 => 1,
        3 | 4 => ROWS,
        5 => ROWS + 1,
        6 => ROWS + 2 + random.up_to(30) as usize,
        7..=12 => 2 + random.up_to(3) as usize,
        _ => 1 + random.up_to(ROWS as u32 - 1) as usize,
    };
    let taken = frequency..row.upper_frequency;
    let mut uppers = BTreeSet::from([row.upper_frequency]);
    // Between the last row and the highest frequency there may be too little room for so many.
    for _ in 0..20 * count {
        if uppers.len() == count {
            break;
        }
        let last = *uppers.last().expect("there is one");
        let upper = match random.up_to(7) {
            0 => frequency - 1,
            1 => row.upper_frequency.saturating_sub(1),
            2 => last.saturating_add(1),
            3 => last.saturating_add(random.of_length(20)),
            4 => random.pick(&[0, u32::MAX]),
            _ => random.of_length(32),
        };
        if !taken.contains(&upper) {
            uppers.insert(upper);
        }
    }
    let row_up_to = |upper| match upper == row.upper_frequency {
        true => row,
        false => any_row(upper, random),
    };
    uppers.into_iter().map(row_up_to).collect()
}

fn any_row(upper_frequency: u32, random: &mut Random) -> Row {
    Row {
        upper_frequency,
        least_clock: random.of_length(28) & random.word(),
        d: any_d(random),
        sdadel_divisor: any_divisor(random),
        scldel_divisor: any_divisor(random),
        shape: random.pick(&[EQUAL, DOUBLE]),
    }
}

/// A frequency above the last row, where there is one.
fn above(case: &Case, random: &mut Random) -> u32 {
    let more = random.of_length(20).max(1);
    let more = random.pick(&[1, more]);
    case.rows
        .last()
        .map_or(more, |last| last.upper_frequency.saturating_add(more))
}

/// A frequency at the end of a row, or next to it.
fn near_a_row(case: &Case, random: &mut Random) -> u32 {
    let upper = random.pick(&case.rows).upper_frequency;
    random.pick(&[upper, upper.saturating_sub(1), upper.saturating_add(1)])
}

/// One thing wrong, or more.
fn damage(case: &mut Case, random: &mut Random) {
    loop {
        match random.up_to(11) {
            0 => add_rest(case, 4 * (1 + random.up_to(4)), random),
            1 => add_rest(case, 1 + random.up_to(ROW as u32 - 2), random),
            2 => case.rows.clear(),
            _ => damage_row(case, random),
        }
        if random.up_to(3) != 0 {
            return;
        }
    }
}

fn add_rest(case: &mut Case, bytes: u32, random: &mut Random) {
    case.rest = (0..bytes)
        .map(|_| random.pick(&[0, 1, 0x40, 0xFF]))
        .collect();
}

/// Something wrong in the first row, the last or another.
fn damage_row(case: &mut Case, random: &mut Random) {
    let Some(last) = case.rows.len().checked_sub(1) else {
        return;
    };
    let between = random.up_to(last as u32) as usize;
    let place = random.pick(&[0, last, between]);
    let before = place
        .checked_sub(1)
        .map(|place| case.rows[place].upper_frequency);
    let row = &mut case.rows[place];
    match random.up_to(9) {
        0 | 1 => row.d = random.pick(&NO_DS),
        2 => row.sdadel_divisor = 0,
        3 => row.scldel_divisor = 0,
        4 => row.shape = random.pick(&NO_SHAPES),
        5 => row.shape = random.word(),
        6 | 7 => row.upper_frequency = before.unwrap_or(u32::MAX),
        8 => row.upper_frequency = before.unwrap_or(u32::MAX).saturating_sub(1),
        _ => row.upper_frequency = random.of_length(32),
    }
}

#[cfg(test)]
mod tests {
    use super::*;
    use crate::answer::Refusal;

    #[test]
    fn tables_and_pairs_of_all_kinds() {
        let mut random = Random::new(1);
        let cases: Vec<Case> = (0..5_000).map(|_| case(&mut random)).collect();
        let share = |is: &dyn Fn(&Case) -> bool| cases.iter().filter(|case| is(case)).count();
        let refused = |number| share(&|case| case.expected() == Err(Refusal(number)));
        assert!(share(&|case| case.expected().is_ok()) > 800);
        assert!(refused(16) > 1_000);
        for number in [1, 2, 3, 4, 5, 6, 17] {
            assert!(refused(number) > 80, "{number}: {}", refused(number));
        }
        assert!(share(&|case| case.rows.len() == ROWS) > 300);
        assert!(share(&|case| case.rows.len() == ROWS + 1) > 100);
        assert!(share(&|case| case.rows.is_empty()) > 50);
    }

    #[test]
    fn what_is_used_for_damage_is_wrong() {
        assert!(NO_SHAPES.iter().all(|&shape| shape > DOUBLE));
        assert!(NO_DS.iter().all(|d| !(8..=256).contains(d)));
    }
}
