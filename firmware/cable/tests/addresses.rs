//! A board is told the address that it was given, whichever of the 128 it is: the first codes of a ten-bit address,
//! 0x78 to 0x7B, among them.

use cable::peripheral::SimulatedI2c;
use huskerivory::{
    AckMode, I2cTarget, RawTimingr, TargetConfig, TargetEvent, TargetListenEvent::PrimaryAddress,
};

/// A board that listens at this address of seven bits.
fn board(address: u8) -> I2cTarget<SimulatedI2c> {
    let config = TargetConfig::new(address.into());
    let mut board = I2cTarget::new(SimulatedI2c::default(), RawTimingr(0), config).unwrap();
    board.enable_target_event(PrimaryAddress).unwrap();
    board
}

/// The event after a start and this address byte, which is acknowledged.
fn called<A: AckMode>(mut board: I2cTarget<SimulatedI2c, A>, address_byte: u8) -> TargetEvent {
    let i2c = board.registers();
    i2c.start();
    for bit in (0..8).rev() {
        i2c.pulse(address_byte >> bit & 1 != 0);
    }
    i2c.pulse(false);
    board.wait_for_event().unwrap()
}

#[test]
fn every_address_of_seven_bits() {
    for own in 0..=0x7F {
        let address = own.into();
        let (written, read) = (
            TargetEvent::Write { address },
            TargetEvent::Read { address },
        );
        assert_eq!(called(board(own), own << 1), written);
        assert_eq!(called(board(own), own << 1 | 1), read);
        let manual = || board(own).with_manual_ack_control();
        assert_eq!(called(manual(), own << 1), written);
        assert_eq!(called(manual(), own << 1 | 1), read);
    }
}
