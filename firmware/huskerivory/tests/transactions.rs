//! Call 7: a controller's transactions.

mod common;

use common::{controller, refused, BOARD};
use huskerivory::{Address, Error, ErrorKind, NoAcknowledgeSource, Operation};

/// The worked run of document 01.
#[test]
fn two_bytes_out() {
    let mut i2c = controller(&[1, 0x0202_00A0, 3, 3, 0x21]);
    let mut buffer = [0x12, 0x34];
    assert_eq!(
        i2c.transaction(BOARD, &[Operation::write(2)], &mut buffer),
        Ok(())
    );
    assert_eq!(
        i2c.registers().take(),
        [
            "w 04 020220A0",
            "r 18 00000001",
            "r 04 020200A0",
            "r 18 00000003",
            "w 28 00000012",
            "r 18 00000003",
            "w 28 00000034",
            "r 18 00000021",
            "w 1C 00000020"
        ]
    );
    assert_eq!(buffer, [0x12, 0x34]);
}

#[test]
fn flags_that_come_late() {
    let mut i2c = controller(&[1, 0x2000, 1, 0, 1, 1, 3, 1, 0x20]);
    assert_eq!(i2c.write(BOARD, &mut [0x12]), Ok(()));
    assert_eq!(
        i2c.registers().take(),
        [
            "w 04 020120A0",
            "r 18 00000001",
            "r 04 00002000",
            "r 18 00000001",
            "r 04 00000000",
            "r 18 00000001",
            "r 18 00000001",
            "r 18 00000003",
            "w 28 00000012",
            "r 18 00000001",
            "r 18 00000020",
            "w 1C 00000020"
        ]
    );
}

#[test]
fn two_bytes_in() {
    let mut i2c = controller(&[1, 0, 4, 0xFFFF_FFAB, 4, 0x1CD, 0x20]);
    let mut buffer = [0; 2];
    assert_eq!(i2c.read(BOARD, &mut buffer), Ok(()));
    assert_eq!(
        i2c.registers().take(),
        [
            "w 04 020224A0",
            "r 18 00000001",
            "r 04 00000000",
            "r 18 00000004",
            "r 24 FFFFFFAB",
            "r 18 00000004",
            "r 24 000001CD",
            "r 18 00000020",
            "w 1C 00000020"
        ]
    );
    assert_eq!(buffer, [0xAB, 0xCD]);
}

#[test]
fn a_repeated_start_at_an_address_of_ten_bits() {
    let mut i2c = controller(&[1, 0, 3, 0x41, 1, 0, 4, 0xAB, 0x20]);
    let mut buffer = [0x12, 0];
    assert_eq!(
        i2c.write_read(Address::TenBit(0x2A5), &mut buffer, 1),
        Ok(())
    );
    assert_eq!(
        i2c.registers().take(),
        [
            "w 04 00012AA5",
            "r 18 00000001",
            "r 04 00000000",
            "r 18 00000003",
            "w 28 00000012",
            "r 18 00000041",
            "w 04 02013EA5",
            "r 18 00000001",
            "r 04 00000000",
            "r 18 00000004",
            "r 24 000000AB",
            "r 18 00000020",
            "w 1C 00000020"
        ]
    );
    assert_eq!(buffer, [0x12, 0xAB]);
}

#[test]
fn two_operations_of_the_same_direction() {
    let mut i2c = controller(&[1, 0, 4, 0x11, 0x80, 1, 0, 0x20]);
    let mut buffer = [0];
    assert_eq!(
        i2c.transaction(
            BOARD,
            &[Operation::read(1), Operation::read(0)],
            &mut buffer
        ),
        Ok(())
    );
    assert_eq!(
        i2c.registers().take(),
        [
            "w 04 010124A0",
            "r 18 00000001",
            "r 04 00000000",
            "r 18 00000004",
            "r 24 00000011",
            "r 18 00000080",
            "w 04 02000400",
            "r 18 00000001",
            "r 04 00000000",
            "r 18 00000020",
            "w 1C 00000020"
        ]
    );
    assert_eq!(buffer, [0x11]);
}

#[test]
fn no_operation() {
    let mut i2c = controller(&[]);
    assert_eq!(i2c.transaction(BOARD, &[], &mut []), Ok(()));
    assert!(i2c.registers().take().is_empty());
}

#[test]
fn a_byte_is_not_acknowledged() {
    let mut i2c = controller(&[1, 0, 2, 0x32, 2, 0, 1, 0x21]);
    let mut buffer = [0x12, 0x34];
    let error = i2c.write(BOARD, &mut buffer).unwrap_err();
    assert_eq!(error, Error::NoAcknowledge);
    assert_eq!(
        error.kind(),
        ErrorKind::NoAcknowledge(NoAcknowledgeSource::Unknown)
    );
    assert_eq!(
        i2c.registers().take(),
        [
            "w 04 020220A0",
            "r 18 00000001",
            "r 04 00000000",
            "r 18 00000002",
            "w 28 00000012",
            "r 18 00000032",
            "w 1C 00000010",
            "r 18 00000002",
            "w 28 00000000",
            "r 18 00000000",
            "w 18 00000001",
            "r 18 00000001",
            "r 18 00000021",
            "w 1C 00000020"
        ]
    );
    assert_eq!(buffer, [0x12, 0x34]);
}

#[test]
fn a_bus_error() {
    let mut i2c = controller(&[0x310, 0, 0x20]);
    let error = i2c.write(BOARD, &mut [0x12]).unwrap_err();
    assert_eq!((error, error.kind()), (Error::Bus, ErrorKind::Bus));
    assert_eq!(
        i2c.registers().take(),
        [
            "w 04 020120A0",
            "r 18 00000310",
            "w 1C 00000100",
            "r 18 00000000",
            "r 18 00000020",
            "w 1C 00000020"
        ]
    );
}

#[test]
fn arbitration_is_lost_in_the_wait_after_a_bus_error() {
    let mut i2c = controller(&[0x100, 0x220]);
    let error = i2c.write(BOARD, &mut [0x12]).unwrap_err();
    assert_eq!(
        (error, error.kind()),
        (Error::ArbitrationLoss, ErrorKind::ArbitrationLoss)
    );
    assert_eq!(
        i2c.registers().take(),
        [
            "w 04 020120A0",
            "r 18 00000100",
            "w 1C 00000100",
            "r 18 00000220",
            "w 1C 00000200"
        ]
    );
}

#[test]
fn stopped_while_reading() {
    let mut i2c = controller(&[1, 0, 4, 0x77, 0x20, 0x20]);
    let mut buffer = [1, 2];
    let error = i2c.read(BOARD, &mut buffer).unwrap_err();
    assert_eq!((error, error.kind()), (Error::Stopped, ErrorKind::Other));
    assert_eq!(buffer, [0x77, 2]);
    assert_eq!(i2c.registers().take().len(), 8);
}

#[test]
fn refused_without_an_access() {
    let mut i2c = controller(&[]);
    assert_eq!(i2c.write(Address::SevenBit(0x80), &mut [1]), refused(8));
    assert_eq!(i2c.read(Address::TenBit(0x400), &mut [1]), refused(8));
    assert_eq!(
        i2c.transaction(BOARD, &[Operation::write(0); 65], &mut []),
        refused(10)
    );
    assert_eq!(
        i2c.transaction(BOARD, &[Operation::from_word(0x2_0001)], &mut [1]),
        refused(10)
    );
    assert_eq!(i2c.write_read(BOARD, &mut [1, 2], 3), refused(10));
    assert!(i2c.registers().take().is_empty());
}

/// A buffer of 65,536 bytes is refused as such, after a wrong address and a list that disagrees.
#[test]
fn a_byte_too_many() {
    let mut i2c = controller(&[]);
    let mut long = [0x5A; 70_000];
    let halves = [Operation::write(32_768); 2];
    assert_eq!(i2c.write(BOARD, &mut long[..65_536]), refused(11));
    assert_eq!(i2c.read(BOARD, &mut long[..65_536]), refused(11));
    assert_eq!(i2c.write(Address::SevenBit(0x80), &mut long), refused(8));
    assert_eq!(
        i2c.transaction(BOARD, &halves, &mut long[..65_536]),
        refused(11)
    );
    assert_eq!(
        i2c.transaction(BOARD, &halves, &mut long[..65_535]),
        refused(10)
    );
    assert_eq!(i2c.write_read(BOARD, &mut long[..65_536], 1), refused(11));
    assert_eq!(i2c.write_read(BOARD, &mut long, 70_000), refused(11));
    assert_eq!(i2c.write_read(BOARD, &mut long, 0), refused(11));
    assert_eq!(i2c.write_read(BOARD, &mut long, 70_001), refused(10));
    // Held at what an operation holds, this would be a write of the whole buffer.
    let whole = &mut long[..65_535];
    assert_eq!(i2c.write_read(BOARD, whole, 65_536), refused(10));
    assert!(long.iter().all(|&byte| byte == 0x5A));
    assert!(i2c.registers().take().is_empty());
}
