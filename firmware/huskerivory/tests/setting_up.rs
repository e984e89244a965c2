//! Calls 1 to 6: setting up, addresses, listening, reset.

mod common;

use common::{controller, refused, target, Scripted, CONFIG, TIMING};
use huskerivory::{
    AddressMode, I2c, I2cTarget, RawTimingr, Registers, TargetConfig, TargetListenEvent,
};

#[test]
fn a_controller() {
    let mut registers = Scripted::new(&[1]);
    I2c::new(&mut registers, TIMING, None).unwrap();
    assert_eq!(
        registers.take(),
        [
            "r 00 00000001",
            "w 00 00000000",
            "w 10 60FB1C39",
            "w 00 00000001"
        ]
    );
}

#[test]
fn a_controller_that_is_a_target_too() {
    let mut registers = Scripted::new(&[0xFFFF_FFFF]);
    I2c::new(&mut registers, RawTimingr(0xFFFF_FFFF), Some(CONFIG)).unwrap();
    assert_eq!(
        registers.take(),
        [
            "r 00 FFFFFFFF",
            "w 00 FFFFFFFE",
            "w 10 F0FFFFFF",
            "w 08 00000084",
            "w 0C 00000342",
            "w 00 00000001"
        ]
    );
}

#[test]
fn a_target() {
    let mut registers = Scripted::new(&[1, 0xFFFF_FFFE]);
    let config = TargetConfig::new(0x42).secondary_address(0x21);
    I2cTarget::new(&mut registers, RawTimingr(0xFFFF_FFFF), config).unwrap();
    assert_eq!(
        registers.take(),
        [
            "r 00 00000001",
            "w 00 00000000",
            "w 10 F0FF0000",
            "w 08 00000084",
            "w 0C 00000042",
            "r 00 FFFFFFFE",
            "w 00 FFFFEFFF"
        ]
    );
}

#[test]
fn other_addresses() {
    let mut i2c = target(&[]);
    let ten = TargetConfig::new(0x42)
        .own_address(0x2A5)
        .own_address_mode(AddressMode::AddressMode10bit);
    i2c.configure_target_addresses(ten).unwrap();
    assert_eq!(i2c.registers().take(), ["w 08 000006A5"]);

    let masked = TargetConfig::new(0x42)
        .secondary_address(0x7F)
        .secondary_address_mask_bits(6);
    i2c.configure_target_addresses(masked).unwrap();
    assert_eq!(i2c.registers().take(), ["w 08 00000084", "w 0C 000007FE"]);
}

#[test]
fn listening() {
    let mut i2c = target(&[1, 0x84, 0x342, 0xFFFF_FFFF, 0x8084, 0x8342]);
    for event in [
        TargetListenEvent::GeneralCall,
        TargetListenEvent::PrimaryAddress,
        TargetListenEvent::SecondaryAddress,
    ] {
        i2c.enable_target_event(event).unwrap();
    }
    for event in [
        TargetListenEvent::GeneralCall,
        TargetListenEvent::PrimaryAddress,
        TargetListenEvent::SecondaryAddress,
    ] {
        i2c.disable_target_event(event).unwrap();
    }
    assert_eq!(
        i2c.registers().take(),
        [
            "r 00 00000001",
            "w 00 00080001",
            "r 08 00000084",
            "w 08 00008084",
            "r 0C 00000342",
            "w 0C 00008342",
            "r 00 FFFFFFFF",
            "w 00 FFF7FFFF",
            "r 08 00008084",
            "w 08 00000084",
            "r 0C 00008342",
            "w 0C 00000342"
        ]
    );
}

#[test]
fn reset_waits_until_the_peripheral_is_off() {
    let mut i2c = controller(&[0x1_0001, 1, 1, 1, 0, 0x1_0000]);
    i2c.reset().unwrap();
    assert_eq!(
        i2c.registers().take(),
        [
            "r 00 00010001",
            "w 00 00010000",
            "r 00 00000001",
            "r 00 00000001",
            "r 00 00000001",
            "r 00 00000000",
            "r 00 00010000",
            "w 00 00010001"
        ]
    );
}

#[test]
fn roles_change_without_an_access() {
    let i2c = controller(&[]);
    let manual = i2c.to_target().with_manual_ack_control();
    let mut registers = manual.with_automatic_ack_control().to_controller().free();
    assert!(registers.take().is_empty());
}

#[test]
fn refused_addresses_touch_no_register() {
    let mut registers = Scripted::new(&[]);
    let seven = TargetConfig::new(0x80);
    let ten = TargetConfig::new(0x400).own_address_mode(AddressMode::AddressMode10bit);
    let secondary = TargetConfig::new(0x42).secondary_address(0x80);
    let mask = TargetConfig::new(0x42).secondary_address_mask_bits(7);
    for config in [seven, ten, secondary, mask] {
        assert_eq!(
            I2c::new(&mut registers, TIMING, Some(config)).map(|_| ()),
            refused(8)
        );
        assert_eq!(
            I2cTarget::new(&mut registers, TIMING, config).map(|_| ()),
            refused(8)
        );
        assert_eq!(target(&[]).configure_target_addresses(config), refused(8));
    }
    assert!(registers.take().is_empty());
}

#[test]
fn registers_may_be_lent_behind_a_trait_object() {
    let mut scripted = Scripted::new(&[0]);
    let registers: &mut dyn Registers = &mut scripted;
    I2c::new(registers, TIMING, None).unwrap();
    assert_eq!(scripted.take().len(), 4);
}
