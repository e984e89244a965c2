//! Tables that are fixed: document 01's five bands, and the worked examples of R-4.

use super::case::Case;
use super::reading::{Row, DOUBLE, EQUAL};
use crate::answer::{Answer, Refusal};

const fn row([upper, least, d, sdadel, scldel, shape]: [u32; 6]) -> Row {
    Row {
        upper_frequency: upper,
        least_clock: least,
        d,
        sdadel_divisor: sdadel,
        scldel_divisor: scldel,
        shape,
    }
}

/// Document 01's bands as a table, the last ending at the highest number there is.
pub const DOCUMENT_01: [Row; 5] = [
    row([7_999, 2_000_000, 256, 2_000_000, 500_000, EQUAL]),
    row([79_999, 2_000_000, 128, 2_000_000, 500_000, EQUAL]),
    row([100_000, 2_000_000, 64, 2_000_000, 500_000, EQUAL]),
    row([400_000, 8_000_000, 96, 3_000_000, 1_000_000, DOUBLE]),
    row([u32::MAX, 17_000_000, 96, 8_000_000, 4_000_000, DOUBLE]),
];

/// The row of document 01 that a frequency falls into.
pub fn document_01(frequency: u32) -> &'static Row {
    let row = DOCUMENT_01
        .iter()
        .find(|row| frequency <= row.upper_frequency);
    row.expect("the last row has no end")
}

const SLOW: Row = row([50_000, 1_000_000, 32, 1_000_000, 250_000, EQUAL]);
const FAST: Row = row([200_000, 4_000_000, 200, 2_000_000, 800_000, DOUBLE]);

/// The worked examples with their answers.
pub fn cases() -> Vec<(Case, Answer)> {
    let pairs = [
        (8_000_000, 50_000, Ok(0x4051_0F0F)),
        (8_000_000, 50_001, Ok(0x0094_3469)),
        (250_000_000, 100_000, Ok(0xC0F9_3F7F)),
        (4_111_999, 500, Ok(0xF041_FFFF)),
        (4_112_000, 500, Err(Refusal(5))),
        (250_000_000, 75_000, Err(Refusal(5))),
        (100, 200_001, Err(Refusal(17))),
        (250_000_001, 200_001, Err(Refusal(2))),
    ];
    let case = |rows: &[Row], clock, frequency| Case {
        rows: rows.to_vec(),
        rest: Vec::new(),
        clock,
        frequency,
    };
    let good =
        pairs.map(|(clock, frequency, answer)| (case(&[SLOW, FAST], clock, frequency), answer));
    let bad = (case(&[SLOW, SLOW], 9, 0), Err(Refusal(16)));
    good.into_iter().chain([bad]).collect()
}

#[cfg(test)]
mod tests {
    use super::*;
    use crate::bands::reading;
    use crate::pairs;
    use crate::timing;

    #[test]
    fn the_reading_gives_the_worked_answers() {
        let cases = cases();
        assert_eq!(cases.len(), 9);
        for (case, answer) in cases {
            assert_eq!(case.expected(), answer, "{case}");
            let bad = answer == Err(Refusal(16));
            assert_eq!(case.loaded(), if bad { 16 } else { 0 });
        }
    }

    #[test]
    fn with_the_five_bands_it_gives_what_the_rust_gives() {
        let table = reading::table(&DOCUMENT_01);
        for pair in pairs::sample() {
            let (clock, frequency) = pair;
            let given = reading::timing(&table, clock, frequency);
            assert_eq!(given, timing::expected(pair), "{pair:?}");
        }
    }
}
