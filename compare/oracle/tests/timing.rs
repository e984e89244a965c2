//! Document 01's timing cases, and the panics of the timing that it knows as refusals.

use oracle::{calc_timing, pack, unpack, Fields, PanicKind};

/// The packed word, or the refusal for the panic.
fn timing(clock: u32, frequency: u32) -> Result<u32, Option<u32>> {
    calc_timing(clock, frequency)
        .map(pack)
        .map_err(|panic| panic.kind.refusal())
}

#[test]
fn the_cases_of_document_01() {
    assert_eq!(timing(250_000_000, 400_000), Ok(0x60FB_1C39));
    assert_eq!(timing(250_000_000, 100_000), Ok(0xF0F7_4D4D));
    assert_eq!(timing(8_000_000, 400_000), Ok(0x0072_050B));
    assert_eq!(timing(2_000_000, 100_000), Ok(0x0041_0909));
    assert_eq!(timing(153_601_536, 100_001), Ok(0xF083_1F3F));
    assert_eq!(timing(153_701_537, 100_001), Err(Some(5)));
    assert_eq!(timing(65_784_000, 8_000), Ok(0xF072_FFFF));
    assert_eq!(timing(65_792_000, 8_000), Err(Some(5)));
    assert_eq!(timing(2_000_000, 1_953), Ok(0x3041_7F7F));
    assert_eq!(timing(2_000_000, 1_951), Err(Some(6)));
}

#[test]
fn every_panic_is_told_apart() {
    assert_eq!(timing(1_000_000, 0), Err(Some(1)));
    assert_eq!(timing(399_999, 100_000), Err(Some(3)));
    assert_eq!(timing(1_999_999, 100_000), Err(Some(4)));
    assert_eq!(timing(7_999_999, 400_000), Err(Some(4)));
    assert_eq!(timing(16_999_999, 400_001), Err(Some(4)));
}

#[test]
fn above_250_mhz_the_driver_has_no_check() {
    assert_eq!(timing(250_000_001, 30_399), Ok(0xF0F7_FFFF));
    assert_eq!(timing(250_000_001, 62_500_001), Err(Some(3)));
    assert_eq!(timing(250_000_001, 1), Err(Some(5)));
    // The prescaler is cut to eight bits: it seems to fit, is too large, or has no successor.
    assert_eq!(timing(2_457_724_577, 100_001), Ok(0x00FF_FFFF));
    assert_eq!(timing(250_000_001, 100_001), Err(Some(5)));
    let panic = calc_timing(2_448_124_481, 100_001).unwrap_err();
    assert_eq!(panic.kind, PanicKind::ClockOver);
    // So is a delay: SCLDEL would be 256.
    assert_eq!(timing(1_028_000_000, 10_597_939), Ok(0x004F_1F3F));
    assert_eq!(timing(1_027_999_999, 10_597_939), Ok(0x00FF_1F3F));
}

#[test]
fn packing_places_the_fields_and_unpacking_finds_them() {
    let fields = Fields {
        presc: 6,
        scldel: 15,
        sdadel: 11,
        sclh: 0x1C,
        scll: 0x39,
    };
    assert_eq!(pack(fields), 0x60FB_1C39);
    assert_eq!(unpack(0x6FFB_1C39), fields);
}

#[test]
fn wide_fields_run_into_each_other_or_are_lost() {
    let with = |set: fn(&mut Fields)| {
        let mut fields = unpack(0);
        set(&mut fields);
        pack(fields)
    };
    assert_eq!(with(|fields| fields.presc = 16), 0);
    assert_eq!(with(|fields| fields.scldel = 16), 0x0100_0000);
    let sdadel = with(|fields| fields.sdadel = 16);
    assert_eq!(sdadel, 0x0010_0000);
    assert_eq!(unpack(sdadel).scldel, 1);
}
