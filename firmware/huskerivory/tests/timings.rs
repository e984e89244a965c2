//! The worked timings of document 01, and packing.

use huskerivory::{I2cTiming, RawTimingr, Refusal};

#[test]
fn timings() {
    for (clock, frequency, expected) in [
        (250_000_000, 400_000, Ok(0x60FB_1C39)),
        (250_000_000, 100_000, Ok(0xF0F7_4D4D)),
        (8_000_000, 400_000, Ok(0x0072_050B)),
        (2_000_000, 100_000, Ok(0x0041_0909)),
        (153_601_536, 100_001, Ok(0xF083_1F3F)),
        (153_701_537, 100_001, Err(5)),
        (65_784_000, 8_000, Ok(0xF072_FFFF)),
        (65_792_000, 8_000, Err(5)),
        (2_000_000, 1_953, Ok(0x3041_7F7F)),
        (2_000_000, 1_951, Err(6)),
        (2_000_000, 0, Err(1)),
        (250_000_001, 400_000, Err(2)),
        (399_999, 100_000, Err(3)),
        (1_999_999, 100_000, Err(4)),
    ] {
        let expected = expected.map(RawTimingr).map_err(Refusal);
        assert_eq!(RawTimingr::for_bus(clock, frequency), expected);
    }
}

#[test]
fn packing_undoes_unpacking() {
    let timing = RawTimingr(0x60FB_1C39).unpack().unwrap();
    let expected = I2cTiming {
        presc: 6,
        scldel: 15,
        sdadel: 11,
        sclh: 28,
        scll: 57,
    };
    assert_eq!(timing, expected);
    assert_eq!(timing.pack(), Ok(RawTimingr(0x60FB_1C39)));
    let all = RawTimingr(0xFFFF_FFFF).unpack().unwrap();
    assert_eq!(all.pack(), Ok(RawTimingr(0xF0FF_FFFF)));
}

#[test]
fn wide_fields_are_refused() {
    let none = RawTimingr(0).unpack().unwrap();
    for wide in [
        I2cTiming { presc: 16, ..none },
        I2cTiming { scldel: 16, ..none },
        I2cTiming { sdadel: 16, ..none },
    ] {
        assert_eq!(wide.pack(), Err(Refusal(7)));
    }
}
