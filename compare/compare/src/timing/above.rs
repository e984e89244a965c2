//! What the Rust gives above the highest clock, where document 01 refuses as 2: rows of
//! docs/DIFFERENCES.md. It goes by its rule, with numbers that were meant for lower clocks.

use oracle::{calc_timing, pack, Fields, Panic, PanicKind};

use crate::bands::examples::document_01;
use crate::bands::reading::EQUAL;
use crate::pairs::Pair;

#[derive(Clone, Copy, Debug, PartialEq, Eq)]
pub enum Row {
    Timing,
    /// The prescaler, or a delay, does not fit its byte and is cut.
    Cut,
    Ratio,
    SpeedLow,
    /// The prescaler has no successor in a byte.
    Overflow,
}

impl Row {
    pub const ALL: [Row; 5] = [
        Row::Timing,
        Row::Cut,
        Row::Ratio,
        Row::SpeedLow,
        Row::Overflow,
    ];

    pub fn words(self) -> &'static str {
        match self {
            Row::Timing => "gives a timing",
            Row::Cut => "gives one with a number cut to its byte",
            Row::Ratio => "panics as for 3",
            Row::SpeedLow => "panics as for 5",
            Row::Overflow => "panics by the prescaler's overflow",
        }
    }
}

/// The row that tells what the Rust does with a pair; or what it does that none tells.
pub fn row(pair: Pair) -> Result<Row, String> {
    let (row, expected) = expected(pair);
    let seen = calc_timing(pair.0, pair.1);
    let seen = seen.map(pack).map_err(|Panic { kind, .. }| kind);
    if seen == expected {
        return Ok(row);
    }
    Err(format!(
        "{pair:?}: {expected:X?} expected of the Rust, but {seen:X?}"
    ))
}

fn expected((clock, frequency): Pair) -> (Row, Result<u32, PanicKind>) {
    let ratio = clock / frequency;
    if ratio < 4 {
        return (Row::Ratio, Err(PanicKind::Ratio));
    }
    let band = document_01(frequency);
    let standard = band.shape == EQUAL;
    let steps = (ratio - 1) / band.d;
    let presc = if standard { steps.min(15) } else { steps % 256 };
    if presc == 255 {
        return (Row::Overflow, Err(PanicKind::ClockOver));
    }
    let cycle = ratio / (presc + 1);
    if presc > 15 || standard && (cycle - 2) / 2 > 255 {
        return (Row::SpeedLow, Err(PanicKind::SpeedLow));
    }
    let (sclh, scll) = if standard {
        ((cycle - 2) / 2, (cycle - 2) / 2)
    } else {
        ((cycle - 3) / 3, 2 * ((cycle - 3) / 3 + 1) - 1)
    };
    let sdadel = clock / band.sdadel_divisor / (presc + 1);
    let scldel = clock / band.scldel_divisor / (presc + 1) - 1;
    let fields = Fields {
        presc: presc as u8,
        scldel: (scldel as u8).clamp(4, 15),
        sdadel: (sdadel as u8).clamp(1, 15),
        sclh: sclh as u8,
        scll: scll as u8,
    };
    let fits = sdadel < 256 && scldel < 256 && (standard || steps < 256);
    let row = if fits { Row::Timing } else { Row::Cut };
    (row, Ok(pack(fields)))
}
