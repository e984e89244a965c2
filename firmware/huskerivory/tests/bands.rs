//! Timings by a board's own speed bands.

use huskerivory::{Band, Bands, RawTimingr, Refusal, Shape};

/// The rows of the worked examples: a slow band of equal halves, and a faster one.
const SLOW: Band = Band {
    upper: 50_000,
    least_clock: 1_000_000,
    d: 32,
    sdadel: 1_000_000,
    scldel: 250_000,
    shape: Shape::Equal,
};
const FASTER: Band = Band {
    upper: 200_000,
    least_clock: 4_000_000,
    d: 200,
    sdadel: 2_000_000,
    scldel: 800_000,
    shape: Shape::Double,
};

/// Document 01's first three bands differ in their frequencies and in d.
const fn standard(upper: u32, d: u32) -> Band {
    Band {
        upper,
        least_clock: 2_000_000,
        d,
        sdadel: 2_000_000,
        scldel: 500_000,
        shape: Shape::Equal,
    }
}

/// Document 01's five bands, the last without an end.
const DOCUMENT_01: [Band; 5] = [
    standard(7_999, 256),
    standard(79_999, 128),
    standard(100_000, 64),
    Band {
        upper: 400_000,
        least_clock: 8_000_000,
        d: 96,
        sdadel: 3_000_000,
        scldel: 1_000_000,
        shape: Shape::Double,
    },
    Band {
        upper: u32::MAX,
        least_clock: 17_000_000,
        d: 96,
        sdadel: 8_000_000,
        scldel: 4_000_000,
        shape: Shape::Double,
    },
];

/// The slow row, up to another frequency.
const fn up_to(upper: u32) -> Band {
    Band { upper, ..SLOW }
}

/// So many rows that rise.
fn rows(count: u32) -> Vec<Band> {
    (1..=count).map(|row| up_to(10_000 * row)).collect()
}

/// The answer by a table, which is the same whether it was loaded before or not.
fn timing(bands: &[Band], clock: u32, frequency: u32) -> Result<RawTimingr, Refusal> {
    let unloaded = RawTimingr::by_bands(bands, clock, frequency);
    let loaded = Bands::load(bands).and_then(|bands| bands.timing(clock, frequency));
    assert_eq!(loaded, unloaded, "{clock} at {frequency}");
    loaded
}

#[track_caller]
fn answers(bands: &[Band], clock: u32, frequency: u32, expected: Result<u32, u32>) {
    let expected = expected.map(RawTimingr).map_err(Refusal);
    let timing = timing(bands, clock, frequency);
    assert_eq!(timing, expected, "{clock} at {frequency}");
}

/// Refused on loading, and before anything else that is wrong.
#[track_caller]
fn bad(bands: &[Band]) {
    assert_eq!(Bands::load(bands), Err(Refusal::BAD_BANDS));
    for (clock, frequency) in [(8_000_000, 50_000), (9, 0), (u32::MAX, 0), (9, u32::MAX)] {
        answers(bands, clock, frequency, Err(16));
    }
}

#[track_caller]
fn good(bands: &[Band]) {
    let loaded = Bands::load(bands).unwrap();
    assert_eq!(loaded.timing(8_000_000, 0), Err(Refusal(1)));
}

#[test]
fn worked_timings() {
    for (clock, frequency, expected) in [
        (8_000_000, 50_000, Ok(0x4051_0F0F)),
        (8_000_000, 50_001, Ok(0x0094_3469)),
        (250_000_000, 100_000, Ok(0xC0F9_3F7F)),
        (4_111_999, 500, Ok(0xF041_FFFF)),
        (4_112_000, 500, Err(5)),
        (250_000_000, 75_000, Err(5)),
        (100, 200_001, Err(17)),
        (250_000_001, 200_001, Err(2)),
    ] {
        answers(&[SLOW, FASTER], clock, frequency, expected);
    }
    answers(&[SLOW, SLOW], 9, 0, Err(16));
}

/// Each refusal where the next one fits too, and the last alone.
#[test]
fn refusals_come_in_their_order() {
    let bands = [SLOW, FASTER];
    answers(&[SLOW, SLOW], 250_000_001, 0, Err(16));
    answers(&bands, 250_000_001, 0, Err(1));
    answers(&bands, 250_000_001, 200_001, Err(2));
    answers(&bands, 799_999, 200_001, Err(17));
    answers(&bands, 799_999, 200_000, Err(3));
    answers(&bands, 999_999, 1, Err(4));
    answers(&bands, 1_000_000, 1, Err(5));
    answers(&bands, 1_000_000, 2_000, Err(6));
}

/// The scldel divisor of the row decides whether a setup time can be counted, whatever its shape.
#[test]
fn no_setup_in_either_shape() {
    for shape in [Shape::Equal, Shape::Double] {
        let band = Band {
            upper: 1_000_000,
            least_clock: 0,
            d: 100,
            sdadel: 1,
            scldel: 10_000_000,
            shape,
        };
        answers(&[band], 9_999_999, 1_000_000, Err(6));
        assert!(timing(&[band], 10_000_000, 1_000_000).is_ok());
        // A prescaler of 2 takes twice the clock.
        answers(&[band], 19_999_999, 190_000, Err(6));
        assert!(timing(&[band], 20_000_000, 190_000).is_ok());
    }
}

/// A prescaler over 16 is held where the halves are equal, and refused where they are not.
#[test]
fn a_prescaler_over_16() {
    for (shape, at_16, over_16) in [
        (Shape::Equal, Ok(0xF0FF_0303), Ok(0xF0FF_0303)),
        (Shape::Double, Ok(0xF0FF_0103), Err(5)),
    ] {
        let band = Band {
            upper: 1_000_000,
            least_clock: 0,
            d: 8,
            sdadel: 1,
            scldel: 1,
            shape,
        };
        answers(&[band], 128_000_000, 1_000_000, at_16);
        answers(&[band], 129_000_000, 1_000_000, over_16);
    }
}

#[test]
fn the_five_bands_are_the_plain_timing() {
    let bands = Bands::load(&DOCUMENT_01).unwrap();
    let clocks = [
        0,
        399_999,
        1_999_999,
        2_000_000,
        7_999_999,
        8_000_000,
        16_999_999,
        17_000_000,
        65_784_000,
        65_792_000,
        153_601_536,
        153_701_537,
        250_000_000,
        250_000_001,
        u32::MAX,
    ];
    let frequencies = [
        0,
        1,
        243,
        1_000,
        1_951,
        1_953,
        7_999,
        8_000,
        30_400,
        79_999,
        80_000,
        100_000,
        100_001,
        162_602,
        400_000,
        400_001,
        1_000_000,
        62_500_000,
        62_500_001,
        u32::MAX,
    ];
    let mut given = 0;
    for clock in clocks {
        for frequency in frequencies {
            let plain = RawTimingr::for_bus(clock, frequency);
            assert_eq!(
                bands.timing(clock, frequency),
                plain,
                "{clock} at {frequency}"
            );
            given += usize::from(plain.is_ok());
        }
    }
    // Else it would be the refusals alone that were compared.
    assert!(given > 80, "{given} words were given");
}

#[test]
fn a_table_has_1_to_16_rows() {
    bad(&[]);
    for count in 1..=16 {
        good(&rows(count));
    }
    for count in [17, 18, 32, 33, 1_000] {
        bad(&rows(count));
    }
    answers(&rows(16), 8_000_000, 160_001, Err(17));
}

#[test]
fn upper_frequencies_rise() {
    good(&[up_to(0)]);
    good(&[up_to(0), up_to(1)]);
    good(&[up_to(u32::MAX - 1), up_to(u32::MAX)]);
    bad(&[up_to(1), up_to(1)]);
    bad(&[up_to(1), up_to(0)]);
    bad(&[up_to(u32::MAX), up_to(0)]);
    for row in 1..16 {
        let mut bands = rows(16);
        bands[row].upper = bands[row - 1].upper;
        bad(&bands);
    }
}

/// Every other number of a row has limits of its own, in each row.
#[test]
fn rows_that_are_refused() {
    for row in 0..16 {
        let with = |changed: fn(&mut Band)| {
            let mut bands = rows(16);
            changed(&mut bands[row]);
            bands
        };
        bad(&with(|band| band.d = 0));
        bad(&with(|band| band.d = 7));
        good(&with(|band| band.d = 8));
        good(&with(|band| band.d = 256));
        bad(&with(|band| band.d = 257));
        bad(&with(|band| band.d = 256 + 8));
        bad(&with(|band| band.d = u32::MAX));
        bad(&with(|band| band.sdadel = 0));
        bad(&with(|band| band.scldel = 0));
        good(&with(|band| (band.sdadel, band.scldel) = (1, 1)));
        good(&with(|band| {
            (band.sdadel, band.scldel) = (u32::MAX, u32::MAX)
        }));
        good(&with(|band| band.least_clock = 0));
        good(&with(|band| band.least_clock = u32::MAX));
        good(&with(|band| band.shape = Shape::Double));
    }
}

/// The row is the first that goes up to the frequency. Each has a least clock of its own, so that
/// another row would tell.
#[test]
fn each_of_16_rows_is_chosen() {
    let mut bands = rows(16);
    for (band, clock) in bands.iter_mut().zip(10_000_001..) {
        band.least_clock = clock;
    }
    let mut lowest = 5_000;
    for band in &bands {
        for frequency in [lowest, band.upper] {
            answers(&bands, band.least_clock - 1, frequency, Err(4));
            assert!(timing(&bands, band.least_clock, frequency).is_ok());
        }
        lowest = band.upper + 1;
    }
}

/// What was loaded stays as it was, whatever becomes of the rows.
#[test]
fn a_loaded_table_is_kept() {
    let mut bands = vec![SLOW, FASTER];
    let loaded = Bands::load(&bands).unwrap();
    assert_eq!(Bands::load(&bands), Ok(loaded.clone()));
    bands[1].d = 100;
    assert_ne!(Bands::load(&bands), Ok(loaded.clone()));
    drop(bands);
    assert_eq!(
        loaded.timing(8_000_000, 50_001),
        Ok(RawTimingr(0x0094_3469))
    );
}
