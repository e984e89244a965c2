//! Calls 8 to 15 and 24 to 29: a target's events and transfers, in both acknowledge modes.

mod common;

use common::{refused, taken_up_anew, target, Scripted};
use huskerivory::{Ack, Description, Error, ErrorKind, Outcome, TargetEvent};

/// ISR with ADDR and TXE: the controller reads from, and writes to, address 0x50.
const READS: u32 = 0x00A1_0009;
const WRITES: u32 = 0x00A0_0009;
/// ISR with STOPF.
const STOP: u32 = 0x20;
/// CR1 and CR2 as a manual event reads them next.
const EVENT: [u32; 2] = [0x1_0001, 0x1FF_8000];

#[test]
fn events() {
    let mut i2c = target(&[1, READS, 0x00F4_0008, 0x86A5, STOP]);
    assert_eq!(
        i2c.wait_for_event(),
        Ok(TargetEvent::Read { address: 0x50 })
    );
    assert_eq!(
        i2c.wait_for_event(),
        Ok(TargetEvent::Write { address: 0x2A5 })
    );
    assert_eq!(i2c.wait_for_event(), Ok(TargetEvent::Stop));
    assert_eq!(
        i2c.registers().take(),
        [
            "r 18 00000001",
            "r 18 00A10009",
            "w 1C 00000008",
            "r 18 00F40008",
            "w 18 00000001",
            "w 1C 00000008",
            "r 08 000086A5",
            "r 18 00000020",
            "w 1C 00000020"
        ]
    );
}

/// Document 02, R-5: ADDCODE 0x78 is a board's own address of seven bits, unless OAR1 has OA1MODE 1. OAR1
/// is read for both.
#[test]
fn events_of_a_board_at_0x78() {
    let mut i2c = target(&[0x00F0_0009, 0x80F0, 0x00F0_0009, 0x8523]);
    let written = |address| Ok(TargetEvent::Write { address });
    assert_eq!(i2c.wait_for_event(), written(0x78));
    assert_eq!(i2c.wait_for_event(), written(0x123));
    assert_eq!(
        i2c.registers().take(),
        [
            "r 18 00F00009",
            "w 1C 00000008",
            "r 08 000080F0",
            "r 18 00F00009",
            "w 1C 00000008",
            "r 08 00008523"
        ]
    );
    let mut i2c = target(&[0x00F1_0009, 0, 0, 0x80F0]).with_manual_ack_control();
    let read = TargetEvent::Read { address: 0x78 };
    assert_eq!(i2c.wait_for_event(), Ok(read));
    assert_eq!(
        i2c.registers().take(),
        [
            "r 18 00F10009",
            "r 00 00000000",
            "w 00 00000000",
            "r 04 00000000",
            "w 04 00000000",
            "r 08 000080F0",
            "w 1C 00000008"
        ]
    );
}

#[test]
fn manual_events() {
    let mut i2c = target(&[
        READS, 0x1_0001, 0x1FF_8000, WRITES, 0x1_0001, 0x1FF_8000, 1, 0x8000, STOP,
    ])
    .with_manual_ack_control();
    assert_eq!(
        i2c.wait_for_event(),
        Ok(TargetEvent::Read { address: 0x50 })
    );
    assert_eq!(
        i2c.wait_for_event(),
        Ok(TargetEvent::Write { address: 0x50 })
    );
    assert_eq!(i2c.wait_for_event(), Ok(TargetEvent::Stop));
    assert_eq!(
        i2c.registers().take(),
        [
            "r 18 00A10009",
            "r 00 00010001",
            "w 00 00000001",
            "r 04 01FF8000",
            "w 04 00008000",
            "w 1C 00000008",
            "r 18 00A00009",
            "r 00 00010001",
            "w 00 00000001",
            "r 04 01FF8000",
            "w 04 00008000",
            "r 00 00000001",
            "w 00 00010001",
            "r 04 00008000",
            "w 04 01008000",
            "r 18 00000020",
            "w 1C 00000020"
        ]
    );
}

#[test]
fn bytes_in() {
    let mut i2c = target(&[4, 0x171, 0x11, 0x24, 0x72, 0x1_0000]);
    let mut buffer = [0; 2];
    assert_eq!(i2c.read(&mut buffer), Ok(2));
    assert_eq!(buffer, [0x71, 0x72]);
    assert_eq!(
        i2c.registers().take(),
        [
            "r 18 00000004",
            "r 24 00000171",
            "r 18 00000011",
            "r 18 00000024",
            "r 24 00000072",
            "r 04 00010000",
            "w 04 00018000"
        ]
    );
}

#[test]
fn fewer_bytes_in_than_there_is_room_for() {
    let mut i2c = target(&[4, 0x71, 8, 0]);
    let mut buffer = [9, 5];
    assert_eq!(i2c.read(&mut buffer), Ok(1));
    assert_eq!(buffer, [0x71, 5]);
    assert_eq!(i2c.registers().take().len(), 5);
}

#[test]
fn bytes_out_and_filling_zeros() {
    let mut i2c = target(&[3, 1, 2, 2, 0x12, 2, 1]);
    let mut bytes = [0x12];
    assert_eq!(i2c.write(&mut bytes), Ok(1));
    assert_eq!(
        i2c.registers().take(),
        [
            "r 18 00000003",
            "w 28 00000012",
            "r 18 00000001",
            "r 18 00000002",
            "w 28 00000000",
            "r 18 00000002",
            "w 28 00000000",
            "r 18 00000012",
            "w 1C 00000010",
            "r 18 00000002",
            "w 28 00000000",
            "r 18 00000001"
        ]
    );
}

#[test]
fn waiting_for_a_transfer() {
    let mut i2c = target(&[WRITES, 4, 0x71, 0, READS, 2, 2, 0x10, 0, 0]);
    let mut buffer = [0];
    assert_eq!(i2c.wait_for_target_read(&mut buffer), Ok(1));
    assert_eq!(buffer, [0x71]);
    assert_eq!(i2c.wait_for_target_write(&mut [0x12, 0x34]), Ok(1));
    assert_eq!(
        i2c.registers().take(),
        [
            "r 18 00A00009",
            "w 1C 00000008",
            "r 18 00000004",
            "r 24 00000071",
            "r 04 00000000",
            "w 04 00008000",
            "r 18 00A10009",
            "w 1C 00000008",
            "r 18 00000002",
            "w 28 00000012",
            "r 18 00000002",
            "w 28 00000034",
            "r 18 00000010",
            "w 1C 00000010",
            "r 18 00000000",
            "r 18 00000000",
            "w 18 00000001"
        ]
    );
}

#[test]
fn the_wrong_event() {
    let mut i2c = target(&[READS, STOP, WRITES, STOP, READS, WRITES, STOP]);
    let mut buffer = [9];
    assert_eq!(
        i2c.wait_for_target_read(&mut buffer),
        Err(Error::ExpectedWrite)
    );
    assert_eq!(i2c.wait_for_target_read(&mut buffer), Err(Error::Stopped));
    assert_eq!(
        i2c.wait_for_target_write(&mut buffer),
        Err(Error::ExpectedRead)
    );
    assert_eq!(i2c.wait_for_target_write(&mut buffer), Err(Error::Stopped));
    assert_eq!(i2c.wait_for_stop(), Err(Error::ExpectedWrite));
    assert_eq!(i2c.wait_for_stop(), Err(Error::ExpectedRead));
    assert_eq!(i2c.wait_for_stop(), Ok(()));
    assert_eq!(buffer, [9]);
    assert_eq!(Error::ExpectedRead.kind(), ErrorKind::Other);
    assert_eq!(i2c.registers().take().len(), 14);
}

#[test]
fn a_manual_read_and_its_acknowledgement() {
    let mut i2c = target(&[0x100_0000, 4, 0x71, 4, 0x72, 0x102_0000]).with_manual_ack_control();
    let mut buffer = [0; 2];
    assert_eq!(i2c.read(&mut buffer), Ok(2));
    assert_eq!(i2c.ack_transfer(), Ok(()));
    assert_eq!(buffer, [0x71, 0x72]);
    assert_eq!(
        i2c.registers().take(),
        [
            "r 04 01000000",
            "w 04 01020000",
            "w 1C 00000008",
            "r 18 00000004",
            "r 24 00000071",
            "r 18 00000004",
            "r 24 00000072",
            "r 04 01020000",
            "w 04 00020000"
        ]
    );
}

#[test]
fn a_manual_transfer_that_is_not_acknowledged() {
    let mut i2c = target(&[0x101_0000, 0x101_8000]).with_manual_ack_control();
    assert_eq!(i2c.nack_transfer(), Ok(()));
    assert_eq!(
        i2c.registers().take(),
        [
            "r 04 01010000",
            "w 04 01018000",
            "r 04 01018000",
            "w 04 00018000"
        ]
    );
}

#[test]
fn manual_transfers_in_blocks() {
    let mut answers = vec![0];
    for byte in 0..=255 {
        if byte == 255 {
            answers.push(0xFF_0000);
        }
        answers.extend([4, byte]);
    }
    let mut i2c = target(&answers).with_manual_ack_control();
    let mut buffer = [0; 256];
    assert_eq!(i2c.read(&mut buffer), Ok(256));
    assert!(buffer.iter().zip(0..=255).all(|(&a, b)| a == b));
    let accesses = i2c.registers().take();
    assert_eq!(
        &accesses[..3],
        ["r 04 00000000", "w 04 00FF0000", "w 1C 00000008"]
    );
    assert_eq!(&accesses[513..515], ["r 04 00FF0000", "w 04 00010000"]);
    assert_eq!(accesses.len(), 517);
}

#[test]
fn a_manual_write() {
    let mut i2c = target(&[0, 2, 2, 2, 0x10, 1, 1]).with_manual_ack_control();
    assert_eq!(i2c.write(&mut [0x12, 0x34]), Ok(2));
    assert_eq!(
        i2c.registers().take(),
        [
            "r 04 00000000",
            "w 04 00020000",
            "w 1C 00000008",
            "r 18 00000002",
            "w 28 00000012",
            "r 18 00000002",
            "w 28 00000034",
            "r 18 00000002",
            "w 28 00000000",
            "r 18 00000010",
            "w 1C 00000010",
            "r 18 00000001",
            "r 18 00000001"
        ]
    );
}

/// Manual writes that end by a NACK: the length of the buffer, the answers, and the count and the
/// number of accesses that have to come of them. A block begins with a read of CR2.
fn nacked_writes() -> [(usize, Vec<u32>, usize, usize); 7] {
    let block = [&[0][..], &[2; 255]].concat();
    let between = [0, 0x11, 1, 1];
    [
        (256, [&block[..], &between].concat(), 254, 519),
        (511, [&block[..], &between].concat(), 254, 519),
        (511, [&block[..], &block, &between].concat(), 509, 1_031),
        // Filling zeros count as put out, the flush does not.
        (1, vec![0, 2, 2, 0x10, 0, 1], 1, 11),
        (1, vec![0, 2, 2, 2, 0x10, 1, 1], 1, 13),
        (1, vec![0, 2, 0x10, 2, 1], 0, 10),
        (1, vec![0, 0x10, 1, 1], 0, 7),
    ]
}

/// Document 02, R-6: all blocks together, less one for the byte that is still in TXDR; blocking, and
/// taken up from its bytes at every poll.
#[test]
fn a_manual_write_counts_over_all_its_blocks() {
    let called = [&[READS][..], &EVENT].concat();
    for (length, answers, count, accesses) in nacked_writes() {
        let mut bytes = vec![0x71; length];
        let mut i2c = target(&answers).with_manual_ack_control();
        assert_eq!(i2c.write(&mut bytes), Ok(count));
        let written = i2c.registers().take();
        assert_eq!(written.len(), accesses);

        let with_event = [&called[..], &answers].concat();
        i2c.registers().answer(&with_event);
        assert_eq!(i2c.wait_for_target_write(&mut bytes), Ok(count));
        assert_eq!(i2c.registers().take()[6..], written);

        for (description, answers, before) in [
            (Description::write(Ack::Manual), &answers, 0),
            (
                Description::wait_for_target_write(Ack::Manual),
                &with_event,
                6,
            ),
        ] {
            let mut registers = Scripted::new(answers);
            let ended = taken_up_anew(&mut registers, description, &[], &mut bytes, |_| {});
            assert_eq!(ended, Ok(Outcome::Done(count as u32)));
            assert_eq!(registers.take()[before..], written);
        }
    }
}

#[test]
fn waiting_for_a_manual_transfer() {
    let mut answers = vec![WRITES];
    answers.extend(EVENT);
    answers.extend([1, 0x8000, 0x100_8000, 4, 0x71]);
    answers.push(READS);
    answers.extend(EVENT);
    answers.extend([0, 2, 0x10, 1, 1]);
    answers.push(READS);
    answers.extend(EVENT);
    answers.push(STOP);
    let mut i2c = target(&answers).with_manual_ack_control();
    let mut buffer = [0];
    assert_eq!(i2c.wait_for_target_read(&mut buffer), Ok(1));
    assert_eq!(buffer, [0x71]);
    assert_eq!(i2c.wait_for_target_write(&mut [0x12]), Ok(0));
    assert_eq!(i2c.wait_for_stop(), Err(Error::ExpectedWrite));
    assert_eq!(i2c.wait_for_stop(), Ok(()));
    assert_eq!(
        i2c.registers().take(),
        [
            "r 18 00A00009",
            "r 00 00010001",
            "w 00 00000001",
            "r 04 01FF8000",
            "w 04 00008000",
            "r 00 00000001",
            "w 00 00010001",
            "r 04 00008000",
            "w 04 01008000",
            "r 04 01008000",
            "w 04 01018000",
            "w 1C 00000008",
            "r 18 00000004",
            "r 24 00000071",
            "r 18 00A10009",
            "r 00 00010001",
            "w 00 00000001",
            "r 04 01FF8000",
            "w 04 00008000",
            "w 1C 00000008",
            "r 04 00000000",
            "w 04 00010000",
            "w 1C 00000008",
            "r 18 00000002",
            "w 28 00000012",
            "r 18 00000010",
            "w 1C 00000010",
            "r 18 00000001",
            "r 18 00000001",
            "r 18 00A10009",
            "r 00 00010001",
            "w 00 00000001",
            "r 04 01FF8000",
            "w 04 00008000",
            "w 1C 00000008",
            "r 18 00000020",
            "w 1C 00000020"
        ]
    );
}

#[test]
fn errors_on_the_bus() {
    let mut i2c = target(&[0x100, 0x200, 0x200]);
    let mut buffer = [5];
    assert_eq!(i2c.wait_for_event(), Err(Error::Bus));
    assert_eq!(i2c.read(&mut buffer), Err(Error::ArbitrationLoss));
    assert_eq!(i2c.write(&mut buffer), Err(Error::ArbitrationLoss));
    assert_eq!(buffer, [5]);
    assert_eq!(
        i2c.registers().take(),
        [
            "r 18 00000100",
            "w 1C 00000100",
            "r 18 00000200",
            "w 1C 00000200",
            "r 18 00000200",
            "w 1C 00000200"
        ]
    );
}

#[test]
fn buffers_that_are_refused_or_empty() {
    let mut long = vec![0; 65_536];
    let mut i2c = target(&[]);
    assert_eq!(i2c.read(&mut []), refused(11));
    assert_eq!(i2c.write(&mut []), refused(11));
    assert_eq!(i2c.wait_for_target_read(&mut []), refused(11));
    assert_eq!(i2c.wait_for_target_write(&mut []), refused(11));
    assert_eq!(i2c.read(&mut long), refused(11));
    let mut i2c = i2c.with_manual_ack_control();
    assert_eq!(i2c.read(&mut []), Ok(0));
    assert_eq!(i2c.write(&mut []), Ok(0));
    assert_eq!(i2c.write(&mut long), refused(11));
    assert!(i2c.registers().take().is_empty());
}
