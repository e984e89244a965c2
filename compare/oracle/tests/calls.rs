//! One or more runs of every call, written out from document 01 and RM0492.
//!
//! A log tells the answers too: they are the values of its reads. At the end stands what the driver
//! does where documents 01 and 02 have something else: the rows of docs/DIFFERENCES.md.

use std::borrow::Cow;

use oracle::{cut, run, Access, Asked, Configuration, Description, Outcome, PanicKind, WAYS};
use Outcome::*;

const CR1: u32 = 0x00;
const CR2: u32 = 0x04;
const OAR1: u32 = 0x08;
const OAR2: u32 = 0x0C;
const TIMINGR: u32 = 0x10;
const ISR: u32 = 0x18;
const ICR: u32 = 0x1C;
const RXDR: u32 = 0x24;
const TXDR: u32 = 0x28;

const TXE: u32 = 0x01;
const TXIS: u32 = 0x02;
const RXNE: u32 = 0x04;
const ADDR: u32 = 0x08;
const NACKF: u32 = 0x10;
const STOPF: u32 = 0x20;
const TC: u32 = 0x40;
const TCR: u32 = 0x80;
const BERR: u32 = 0x100;
const ARLO: u32 = 0x200;
const DIR: u32 = 0x1_0000;
const ADDCODE_50: u32 = 0x50 << 17;
const ADDCODE_78: u32 = 0x78 << 17; // a 10-bit header, or a board at 0x78
const ADDCODE_7A: u32 = 0x7A << 17; // a 10-bit header

const fn r(offset: u32, value: u32) -> Access {
    [offset, value]
}

const fn w(offset: u32, value: u32) -> Access {
    [0x100 + offset, value]
}

fn is_read(access: &Access) -> bool {
    access[0] < 0x100
}

/// Runs the call over the log's answers, as `check_whole` does, and over every shorter list of
/// answers, where the run must wait just before the read that finds none.
fn check(description: Description, buffer: &mut [u8], log: &[Access], ends: (Outcome, u32)) {
    let reads: Vec<usize> = (0..log.len()).filter(|&i| is_read(&log[i])).collect();
    let answers: Vec<u32> = reads.iter().map(|&i| log[i][1]).collect();
    for (used, &place) in reads.iter().enumerate() {
        let cut = run(&description, &mut buffer.to_vec(), &answers[..used]);
        assert_eq!((cut.outcome, cut.value), (Waiting, 0));
        assert_eq!((cut.used, &cut.log[..]), (used, &log[..place]));
    }
    check_whole(description, buffer, log, ends);
}

/// Runs the call over the log's answers and one more, which must stay unused, and holds outcome,
/// value and log to what is written.
fn check_whole(description: Description, buffer: &mut [u8], log: &[Access], ends: (Outcome, u32)) {
    let reads = log.iter().filter(|access| is_read(access));
    let mut answers: Vec<u32> = reads.map(|access| access[1]).collect();
    let used = answers.len();
    answers.push(0xFFFF_FFFF);
    let whole = run(&description, buffer, &answers);
    assert_eq!((whole.used, &whole.log[..]), (used, log));
    assert_eq!((whole.outcome, whole.value), ends);
}

/// Calls that have nothing to describe but their number, and no bytes.
fn check_plain(call: u32, log: &[Access], ends: (Outcome, u32)) {
    let description = Description {
        call,
        ..Default::default()
    };
    check(description, &mut [], log, ends);
}

/// Calls that move bytes: `before` is lent, `after` is what the run leaves.
fn check_bytes(call: u32, before: &[u8], log: &[Access], ends: (Outcome, u32), after: &[u8]) {
    let description = Description {
        call,
        ..Default::default()
    };
    let mut buffer = before.to_vec();
    check(description, &mut buffer, log, ends);
    assert_eq!(buffer, after);
}

/// Call 7 to address 0x50, or to 0x2A5 if 10-bit, with its list already cut.
fn check_transaction(
    ten_bit: bool,
    operations: &[u32],
    before: &[u8],
    log: &[Access],
    outcome: Outcome,
    after: &[u8],
) {
    let description = Description {
        call: 7,
        address: if ten_bit { 0x2A5 } else { 0x50 },
        ten_bit,
        operations: cut(operations),
        ..Default::default()
    };
    let mut buffer = before.to_vec();
    check(description, &mut buffer, log, (outcome, 0));
    assert_eq!(buffer, after);
}

const READ: u32 = 0x1_0000;

const TARGET: Configuration = Configuration {
    own_address: 0x42,
    ten_bit: false,
    secondary_address: Some(0x21),
    mask: Some(2),
    way: 0,
};

#[test]
fn call_1_without_a_configuration() {
    let description = Description {
        call: 1,
        timingr: 0x6FFB_1C39,
        ..Default::default()
    };
    let log = [
        r(CR1, 0xFFFF_FFFF),
        w(CR1, 0xFFFF_FFFE),
        w(TIMINGR, 0x60FB_1C39),
        w(CR1, 1),
    ];
    check(description, &mut [], &log, (Done, 0));
}

#[test]
fn call_1_with_a_configuration() {
    let description = Description {
        call: 1,
        timingr: 0xFFFF_FFFF,
        configuration: Some(TARGET),
        ..Default::default()
    };
    let log = [
        r(CR1, 0x0001_1001),
        w(CR1, 0x0001_1000),
        w(TIMINGR, 0xF0FF_FFFF),
        w(OAR1, 0x84),
        w(OAR2, 0x342),
        w(CR1, 1),
    ];
    check(description, &mut [], &log, (Done, 0));
}

#[test]
fn call_2_writes_no_scll_or_sclh() {
    let description = Description {
        call: 2,
        timingr: 0xFFFF_FFFF,
        configuration: Some(TARGET),
        ..Default::default()
    };
    let log = [
        r(CR1, 1),
        w(CR1, 0),
        w(TIMINGR, 0xF0FF_0000),
        w(OAR1, 0x84),
        w(OAR2, 0x342),
        r(CR1, 0xFFFF_FFFE),
        w(CR1, 0xFFFF_EFFF),
    ];
    check(description, &mut [], &log, (Done, 0));
}

#[test]
fn call_3_in_both_modes() {
    let configure = |configuration, log: &[Access]| {
        let description = Description {
            call: 3,
            configuration: Some(configuration),
            ..Default::default()
        };
        check(description, &mut [], log, (Done, 0));
    };
    let ten_bit = Configuration {
        own_address: 0x2A5,
        ten_bit: true,
        mask: Some(6), // of no use without a secondary address
        ..Default::default()
    };
    configure(ten_bit, &[w(OAR1, 0x6A5)]);
    let unmasked = Configuration {
        mask: None,
        ..TARGET
    };
    configure(unmasked, &[w(OAR1, 0x84), w(OAR2, 0x42)]);
    configure(TARGET, &[w(OAR1, 0x84), w(OAR2, 0x342)]);
}

#[test]
fn the_configurations_setters_in_every_way() {
    let alone = Configuration {
        secondary_address: None,
        mask: None,
        ..TARGET
    };
    let ten_bit = Configuration {
        own_address: 0x2A5,
        ten_bit: true,
        ..TARGET
    };
    let configurations: [(Configuration, &[Access]); 3] = [
        (TARGET, &[w(OAR1, 0x84), w(OAR2, 0x342)]),
        (alone, &[w(OAR1, 0x84)]),
        (ten_bit, &[w(OAR1, 0x6A5), w(OAR2, 0x342)]),
    ];
    for way in 0..WAYS {
        for (configuration, log) in configurations {
            let description = Description {
                call: 3,
                configuration: Some(Configuration {
                    way,
                    ..configuration
                }),
                ..Default::default()
            };
            check(description, &mut [], log, (Done, 0));
        }
    }
}

#[test]
fn calls_4_and_5_switch_each_kind() {
    let switch = |call, listen, log: &[Access]| {
        let description = Description {
            call,
            listen,
            ..Default::default()
        };
        check(description, &mut [], log, (Done, 0));
    };
    switch(4, 0, &[r(CR1, 1), w(CR1, 0x0008_0001)]);
    switch(4, 1, &[r(OAR1, 0x84), w(OAR1, 0x8084)]);
    switch(4, 2, &[r(OAR2, 0x342), w(OAR2, 0x8342)]);
    switch(5, 0, &[r(CR1, 0xFFFF_FFFF), w(CR1, 0xFFF7_FFFF)]);
    switch(5, 1, &[r(OAR1, 0xFFFF_FFFF), w(OAR1, 0xFFFF_7FFF)]);
    switch(5, 2, &[r(OAR2, 0x8342), w(OAR2, 0x342)]);
}

#[test]
fn call_6_waits_until_pe_is_0() {
    let log = [
        r(CR1, 0x0001_0001),
        w(CR1, 0x0001_0000),
        r(CR1, 1), // the two reads that give time
        r(CR1, 1),
        r(CR1, 1), // still enabled
        r(CR1, 0),
        r(CR1, 0x0001_0000),
        w(CR1, 0x0001_0001),
    ];
    check_plain(6, &log, (Done, 0));
}

#[test]
fn call_7_as_document_01_prints_it() {
    let log = [
        w(CR2, 0x0202_20A0),
        r(ISR, 1),
        r(CR2, 0x0202_00A0),
        r(ISR, 3),
        w(TXDR, 0x12),
        r(ISR, 3),
        w(TXDR, 0x34),
        r(ISR, 0x21),
        w(ICR, 0x20),
    ];
    check_transaction(false, &[2], &[0x12, 0x34], &log, Done, &[0x12, 0x34]);
}

#[test]
fn call_7_without_operations() {
    check_transaction(false, &[], &[], &[], Done, &[]);
}

#[test]
fn call_7_repeats_the_start_for_the_other_direction() {
    let log = [
        w(CR2, 0x0001_2AA5), // START, ADD10, one byte
        r(ISR, TXE),
        r(CR2, 0x2000), // START still pending
        r(ISR, TXE),
        r(CR2, 0),
        r(ISR, TXE),
        r(ISR, TXE | TXIS),
        w(TXDR, 0x12),
        r(ISR, TXE),
        r(ISR, TXE | TC),
        w(CR2, 0x0202_3EA5), // AUTOEND, START, HEAD10R, ADD10, RD_WRN, two bytes
        r(ISR, TXE),
        r(CR2, 0),
        r(ISR, TXE | NACKF), // a byte in does not look at NACK
        r(ISR, RXNE | STOPF | ADDR),
        r(RXDR, 0xFFFF_FFAB),
        r(ISR, RXNE),
        r(RXDR, 0xCD),
        r(ISR, TXE),
        r(ISR, STOPF),
        w(ICR, STOPF),
    ];
    check_transaction(
        true,
        &[1, READ | 2],
        &[0x12, 0, 0],
        &log,
        Done,
        &[0x12, 0xAB, 0xCD],
    );
}

#[test]
fn call_7_reloads_for_the_same_direction() {
    let log = [
        w(CR2, 0x0101_24A0), // RELOAD, START, RD_WRN, one byte
        r(ISR, TXE),
        r(CR2, 0),
        r(ISR, RXNE),
        r(RXDR, 0x11),
        r(ISR, TC), // not what is awaited
        r(ISR, TCR),
        w(CR2, 0x0200_0400), // AUTOEND, RD_WRN, no byte
        r(ISR, TXE),
        r(CR2, 0),
        r(ISR, STOPF),
        w(ICR, STOPF),
    ];
    check_transaction(false, &[READ | 1, READ], &[0], &log, Done, &[0x11]);
}

/// Holds a call that ends well to its value, its answers used, its accesses, and its words written
/// to CR2.
fn check_example(
    asked: &Asked,
    length: usize,
    answers: &[u32],
    numbers: (u32, usize, usize),
    controls: &[u32],
) {
    assert_eq!(asked.refusal(length), None);
    let description = asked.description(length).unwrap();
    let run = run(&description, &mut vec![0; length], answers);
    assert_eq!(run.outcome, Done);
    assert_eq!((run.value, run.used, run.log.len()), numbers);
    let written = run.log.iter().filter(|access| access[0] == 0x100 + CR2);
    let written: Vec<u32> = written.map(|access| access[1]).collect();
    assert_eq!(written, controls);
}

fn transaction(address: u32, ten_bit: bool, operations: &[u32]) -> Asked {
    Asked {
        call: 7,
        address,
        ten_bit,
        operations: operations.to_vec(),
        ..Default::default()
    }
}

#[test]
fn the_examples_of_r_1() {
    let answers = [&[1, 0][..], &[2; 255], &[0x80, 1, 0, 2, 0x20]].concat();
    let asked = transaction(0x50, false, &[256]);
    let controls = [0x01FF_20A0, 0x0201_0000];
    check_example(&asked, 256, &answers, (0, 262, 521), &controls);

    let sent = [1, 0, 2, 0x40];
    let received = [
        &[1, 0][..],
        &[4, 0x71].repeat(255),
        &[0x80, 1, 0, 4, 0x72, 0x20],
    ]
    .concat();
    let answers = [&sent[..], &received].concat();
    let asked = transaction(0x123, true, &[1, READ | 256]);
    let controls = [0x0001_2923, 0x01FF_3D23, 0x0201_0400];
    check_example(&asked, 257, &answers, (0, 522, 527), &controls);

    let asked = transaction(0x50, false, &[0]);
    check_example(&asked, 0, &[1, 0, 0x20], (0, 3, 5), &[0x0200_20A0]);
}

/// 510 bytes are two pieces, and 511 have a third. TC and STOPF are not awaited inside an
/// operation.
#[test]
fn call_7_reloads_inside_an_operation() {
    let piece = |control, count, endings: &[u32]| {
        let mut log = vec![w(CR2, control), r(ISR, TXE), r(CR2, 0)];
        log.extend([r(ISR, TXIS), w(TXDR, 0x12)].repeat(count));
        log.extend(endings.iter().map(|&word| r(ISR, word)));
        log
    };
    let first = piece(0x01FF_20A0, 255, &[TC | STOPF, TCR]);
    let stop = [w(ICR, STOPF)];
    let second = piece(0x02FF_0000, 255, &[TC | TCR, STOPF]);
    let log = [&first[..], &second, &stop].concat();
    check_transaction(false, &[510], &[0x12; 510], &log, Done, &[0x12; 510]);
    let second = piece(0x01FF_0000, 255, &[TC | STOPF, TCR]);
    let third = piece(0x0201_0000, 1, &[TC | TCR, STOPF]);
    let log = [&first[..], &second, &third, &stop].concat();
    check_transaction(false, &[511], &[0x12; 511], &log, Done, &[0x12; 511]);
}

/// The next operation goes on by a reload if it has the same direction, else by a repeated start,
/// and an error in a later piece ends the call as in any other.
#[test]
fn call_7_goes_on_after_a_long_operation() {
    let receives = |control, count, ending| {
        let mut log = vec![w(CR2, control), r(ISR, TXE), r(CR2, 0)];
        log.extend([r(ISR, RXNE), r(RXDR, 0x71)].repeat(count));
        log.push(r(ISR, ending));
        log
    };
    let long = [
        receives(0x01FF_24A0, 255, TCR),
        receives(0x0101_0400, 1, TCR),
        receives(0x0200_0400, 0, STOPF),
        vec![w(ICR, STOPF)],
    ]
    .concat();
    let bytes = [0x71; 256];
    check_transaction(false, &[READ | 256, READ], &[0; 256], &long, Done, &bytes);
    let log = [
        receives(0x01FF_24A0, 255, TCR),
        receives(0x0001_0400, 1, TC),
        vec![w(CR2, 0x0200_20A0), r(ISR, ARLO), w(ICR, ARLO)],
        vec![r(ISR, STOPF), w(ICR, STOPF)],
    ]
    .concat();
    check_transaction(
        false,
        &[READ | 256, 0],
        &[0; 256],
        &log,
        Arbitration,
        &bytes,
    );
    let log = [
        receives(0x01FF_24A0, 255, TCR),
        vec![w(CR2, 0x0201_0400), r(ISR, BERR), w(ICR, BERR)],
        vec![r(ISR, STOPF), w(ICR, STOPF)],
    ]
    .concat();
    let mut left = bytes;
    left[255] = 0;
    check_transaction(false, &[READ | 256], &[0; 256], &log, Bus, &left);
}

#[test]
fn call_7_flushes_after_a_nack_and_waits_for_the_stop() {
    let log = [
        w(CR2, 0x0201_20A0),
        r(ISR, TXE),
        r(CR2, 0),
        r(ISR, NACKF | TXIS | STOPF),
        w(ICR, NACKF),
        r(ISR, TXIS),
        w(TXDR, 0),
        r(ISR, 0),
        w(ISR, 1),
        r(ISR, TXE),
        r(ISR, TXE | STOPF),
        w(ICR, STOPF),
    ];
    check_transaction(false, &[1], &[0x12], &log, Nack, &[0x12]);
}

#[test]
fn call_7_gives_the_newer_error() {
    let log = [
        w(CR2, 0x0201_20A0),
        r(ISR, BERR | ARLO | NACKF),
        w(ICR, BERR),
        r(ISR, ARLO | STOPF),
        w(ICR, ARLO),
    ];
    check_transaction(false, &[1], &[0x12], &log, Arbitration, &[0x12]);
}

#[test]
fn call_7_stopped_while_reading() {
    let log = [
        w(CR2, 0x0202_24A0),
        r(ISR, TXE),
        r(CR2, 0),
        r(ISR, RXNE),
        r(RXDR, 0x77),
        r(ISR, STOPF),
        r(ISR, STOPF),
        w(ICR, STOPF),
    ];
    check_transaction(false, &[READ | 2], &[1, 2], &log, Stopped, &[0x77, 2]);
}

#[test]
fn a_waiting_run_leaves_the_bytes_received_so_far() {
    let description = Description {
        call: 7,
        address: 0x50,
        operations: Cow::Borrowed(&[READ | 3]),
        ..Default::default()
    };
    let mut buffer = [1, 2, 3];
    let answers = [TXE, 0, RXNE, 0x71, RXNE, 0x72, RXNE];
    let cut = run(&description, &mut buffer, &answers);
    assert_eq!((cut.outcome.word(), cut.used), ("waiting", 7));
    assert_eq!(buffer, [0x71, 0x72, 3]);
}

#[test]
fn call_8_tells_the_events() {
    let log = [
        r(ISR, TXE),
        r(ISR, ADDCODE_50 | DIR | ADDR | TXE | STOPF),
        w(ICR, ADDR),
    ];
    check_plain(8, &log, (EventRead, 0x50));

    let log = [
        r(ISR, ADDCODE_7A | ADDR),
        w(ISR, 1),
        w(ICR, ADDR),
        r(OAR1, 0x86A5),
    ];
    check_plain(8, &log, (EventWrite, 0x2A5));

    check_plain(8, &[r(ISR, STOPF), w(ICR, STOPF)], (EventStop, 0));
    check_plain(8, &[r(ISR, BERR | ADDR), w(ICR, BERR)], (Bus, 0));
}

#[test]
fn call_9_ends_with_nack_set_but_after_an_error() {
    let log = [
        r(ISR, RXNE),
        r(RXDR, 0x171),
        r(ISR, TXE | NACKF),
        r(ISR, RXNE),
        r(RXDR, 0x72),
        r(CR2, 0x0001_0000),
        w(CR2, 0x0001_8000),
    ];
    check_bytes(9, &[0, 0], &log, (Done, 2), &[0x71, 0x72]);

    let log = [
        r(ISR, RXNE),
        r(RXDR, 0x71),
        r(ISR, ADDR),
        r(CR2, 0),
        w(CR2, 0x8000),
    ];
    check_bytes(9, &[0, 5], &log, (Done, 1), &[0x71, 5]);

    check_bytes(
        9,
        &[5],
        &[r(ISR, ARLO), w(ICR, ARLO)],
        (Arbitration, 0),
        &[5],
    );
}

#[test]
fn call_10_fills_with_zeros_and_counts_up_to_the_buffer() {
    let log = [
        r(ISR, TXE | TXIS),
        w(TXDR, 0x12),
        r(ISR, TXE),
        r(ISR, TXIS),
        w(TXDR, 0),
        r(ISR, TXIS),
        w(TXDR, 0),
        r(ISR, NACKF | TXIS),
        w(ICR, NACKF),
        r(ISR, TXIS),
        w(TXDR, 0),
        r(ISR, TXE),
    ];
    check_bytes(10, &[0x12], &log, (Done, 1), &[0x12]);

    let log = [r(ISR, NACKF), w(ICR, NACKF), r(ISR, TXE), r(ISR, TXE)];
    check_bytes(10, &[0x12], &log, (Done, 0), &[0x12]);
}

#[test]
fn call_11_waits_for_a_write_event() {
    let log = [
        r(ISR, ADDCODE_50 | ADDR | TXE),
        w(ICR, ADDR),
        r(ISR, RXNE),
        r(RXDR, 0x71),
        r(CR2, 0),
        w(CR2, 0x8000),
    ];
    check_bytes(11, &[0], &log, (Done, 1), &[0x71]);

    let log = [r(ISR, ADDCODE_50 | DIR | ADDR | TXE), w(ICR, ADDR)];
    check_bytes(11, &[9], &log, (ExpectedWrite, 0), &[9]);
    let log = [r(ISR, STOPF), w(ICR, STOPF)];
    check_bytes(11, &[9], &log, (Stopped, 0), &[9]);
}

#[test]
fn call_12_waits_for_a_read_event() {
    let log = [
        r(ISR, ADDCODE_50 | DIR | ADDR),
        w(ISR, 1),
        w(ICR, ADDR),
        r(ISR, TXIS),
        w(TXDR, 0x12),
        r(ISR, TXIS),
        w(TXDR, 0x34),
        r(ISR, NACKF),
        w(ICR, NACKF),
        r(ISR, 0),
        r(ISR, 0),
        w(ISR, 1),
    ];
    check_bytes(12, &[0x12, 0x34], &log, (Done, 1), &[0x12, 0x34]);

    let log = [r(ISR, ADDCODE_50 | ADDR | TXE), w(ICR, ADDR)];
    check_bytes(12, &[9], &log, (ExpectedRead, 0), &[9]);
    let log = [r(ISR, STOPF), w(ICR, STOPF)];
    check_bytes(12, &[9], &log, (Stopped, 0), &[9]);
}

#[test]
fn call_13_waits_for_a_stop() {
    check_plain(13, &[r(ISR, TXE), r(ISR, STOPF), w(ICR, STOPF)], (Done, 0));
    let event = ADDCODE_50 | ADDR | TXE;
    check_plain(13, &[r(ISR, event | DIR), w(ICR, ADDR)], (ExpectedWrite, 0));
    check_plain(13, &[r(ISR, event), w(ICR, ADDR)], (ExpectedRead, 0));
}

#[test]
fn calls_14_and_15_end_a_manual_transfer() {
    check_plain(14, &[r(CR2, 0xFFFF_FFFF), w(CR2, 0xFEFF_FFFF)], (Done, 0));
    let log = [
        r(CR2, 0x0101_0000),
        w(CR2, 0x0101_8000),
        r(CR2, 0x0101_8000),
        w(CR2, 0x0001_8000),
    ];
    check_plain(15, &log, (Done, 0));
}

/// The accesses of a manual event after its ISR read, up to the address.
const MANUAL: [Access; 4] = [
    r(CR1, 0x0001_0001),
    w(CR1, 1),
    r(CR2, 0x01FF_8000),
    w(CR2, 0x8000),
];

/// The accesses of a manual event by which the controller reads.
fn manual_read_event() -> Vec<Access> {
    let status = r(ISR, ADDCODE_50 | DIR | ADDR | TXE);
    [&[status][..], &MANUAL, &[w(ICR, ADDR)]].concat()
}

/// Those that follow a write event's address.
const MANUAL_WRITE: [Access; 4] = [
    r(CR1, 1),
    w(CR1, 0x0001_0001),
    r(CR2, 0x8000),
    w(CR2, 0x0100_8000),
];

#[test]
fn call_24_sets_up_byte_control() {
    let mut log = vec![r(ISR, ADDCODE_50 | DIR | ADDR), w(ISR, 1)];
    log.extend(MANUAL);
    log.push(w(ICR, ADDR));
    check_plain(24, &log, (EventRead, 0x50));

    let mut log = vec![r(ISR, ADDCODE_7A | ADDR | TXE)];
    log.extend(MANUAL);
    log.push(r(OAR1, 0x6A5));
    log.extend(MANUAL_WRITE);
    check_plain(24, &log, (EventWrite, 0x2A5));

    check_plain(24, &[r(ISR, STOPF), w(ICR, STOPF)], (EventStop, 0));
}

#[test]
fn call_25_reads_in_blocks() {
    let mut log = vec![r(CR2, 0x0100_0000), w(CR2, 0x01FF_0000), w(ICR, ADDR)];
    log.extend([r(ISR, RXNE), r(RXDR, 0x71)].repeat(255));
    log.extend([r(CR2, 0x01FF_0000), w(CR2, 0x0102_0000)]);
    log.extend([r(ISR, RXNE), r(RXDR, 0x72)]);
    let block = log.len();
    log.extend([r(ISR, RXNE), r(RXDR, 0x73)]);
    let mut bytes = vec![0x71; 255];
    bytes.extend([0x72, 0x73]);
    check_bytes(25, &[0; 257], &log, (Done, 257), &bytes);

    log.truncate(block);
    log.push(r(ISR, STOPF)); // neither cleared nor answered with a NACK
    bytes[256] = 0;
    check_bytes(25, &[0; 257], &log, (Done, 256), &bytes);

    check_bytes(25, &[], &[], (Done, 0), &[]);
}

/// A NACK that finds nothing to flush, and one that finds a byte.
const NACK: [Access; 4] = [r(ISR, NACKF | TXE), w(ICR, NACKF), r(ISR, TXE), r(ISR, TXE)];
const NACK_AND_FLUSH: [Access; 6] = [
    r(ISR, NACKF | TXIS),
    w(ICR, NACKF),
    r(ISR, TXIS),
    w(TXDR, 0),
    r(ISR, 0),
    w(ISR, 1),
];

#[test]
fn call_26_writes_in_blocks_and_fills_the_last() {
    let mut log = vec![r(CR2, 0), w(CR2, 0x00FF_0000), w(ICR, ADDR)];
    log.extend([r(ISR, TXIS), w(TXDR, 0x12)].repeat(255));
    log.extend([r(CR2, 0x00FF_0000), w(CR2, 0x0001_0000)]);
    log.extend([r(ISR, TXIS), w(TXDR, 0x12)]);
    log.extend([r(ISR, TXIS), w(TXDR, 0)].repeat(3));
    log.extend(NACK);
    check_bytes(26, &[0x12; 256], &log, (Done, 256), &[0x12; 256]);

    let mut log = vec![r(CR2, 0), w(CR2, 0x00FF_0000), w(ICR, ADDR)];
    log.extend([r(ISR, TXIS), w(TXDR, 0x12)].repeat(5));
    log.extend(NACK);
    check_bytes(26, &[0x12; 256], &log, (Done, 4), &[0x12; 256]);

    check_bytes(26, &[], &[], (Done, 0), &[]);
}

#[test]
fn call_27_reads_after_a_manual_write_event() {
    let mut log = vec![r(ISR, ADDCODE_50 | ADDR | TXE)];
    log.extend(MANUAL);
    log.extend(MANUAL_WRITE);
    check_bytes(27, &[], &log, (Done, 0), &[]);

    log.extend([r(CR2, 0x0100_0000), w(CR2, 0x0101_0000), w(ICR, ADDR)]);
    log.extend([r(ISR, RXNE), r(RXDR, 0x71)]);
    check_bytes(27, &[0], &log, (Done, 1), &[0x71]);
}

#[test]
fn call_28_writes_after_a_manual_read_event() {
    let mut log = manual_read_event();
    log.extend([r(CR2, 0), w(CR2, 0x0001_0000), w(ICR, ADDR)]);
    log.extend([r(ISR, TXIS), w(TXDR, 0x12)]);
    log.extend(NACK);
    check_bytes(28, &[0x12], &log, (Done, 0), &[0x12]);

    let mut log = vec![r(ISR, ADDCODE_50 | ADDR | TXE)];
    log.extend(MANUAL);
    log.extend(MANUAL_WRITE);
    check_bytes(28, &[0x12], &log, (ExpectedRead, 0), &[0x12]);
}

#[test]
fn call_29_completes_an_unfitting_event() {
    check_plain(29, &manual_read_event(), (ExpectedWrite, 0));

    check_plain(29, &[r(ISR, STOPF), w(ICR, STOPF)], (Done, 0));
}

/// Holds a run that panics to its log, as `check` does others.
fn check_panic(description: Description, length: usize, log: &[Access], kind: PanicKind) {
    let reads = log.iter().filter(|access| is_read(access));
    let answers: Vec<u32> = reads.map(|access| access[1]).collect();
    let broken = run(&description, &mut vec![0x12; length], &answers);
    assert_eq!(broken.log, log);
    match broken.outcome {
        Panicked(panic) => assert_eq!(panic.kind, kind),
        outcome => panic!("{}", outcome.word()),
    }
}

/// Runs of both manual writes, 28 after its event, with a buffer of this length and a NACK after so
/// many bytes, zeros past the buffer's end: with nothing to flush, and with a byte.
fn nacked(length: usize, bytes: usize) -> Vec<(Description<'static>, Vec<Access>)> {
    let mut runs = Vec::new();
    let zeros = [r(ISR, TXIS), w(TXDR, 0)].repeat(bytes.saturating_sub(length));
    for (call, event) in [(26, Vec::new()), (28, manual_read_event())] {
        let sent = moved(call, length, bytes.min(length));
        for nack in [&NACK[..], &NACK_AND_FLUSH] {
            let description = Description {
                call,
                ..Default::default()
            };
            let log = [&event[..], &sent, &zeros, nack].concat();
            runs.push((description, log));
        }
    }
    runs
}

/// Document 02 counts 0, 254 and 509 there.
#[test]
fn a_nack_at_byte_0_of_a_block_that_is_not_the_last_panics() {
    for (length, bytes) in [(256, 0), (511, 255), (766, 255), (766, 510)] {
        for (description, log) in nacked(length, bytes) {
            check_panic(description, length, &log, PanicKind::NackAtOnce);
        }
    }
}

/// Document 02 counts one byte less: 254, 509 and 764.
#[test]
fn a_nack_at_byte_0_of_a_later_block_that_is_the_last_counts_all_bytes_before() {
    let first = [256, 257, 510].map(|length| (length, 255));
    for (length, bytes) in [&first[..], &[(511, 510), (765, 510), (766, 765)]].concat() {
        for (description, log) in nacked(length, bytes) {
            let ends = (Done, bytes as u32);
            check(description, &mut vec![0x12; length], &log, ends);
        }
    }
}

/// At every other byte the driver counts as document 02 does: a byte less than were put out,
/// at least 0 and at most the buffer's length.
#[test]
fn a_nack_at_another_byte_counts_one_less() {
    for length in [1, 255, 256, 257, 510, 511, 765, 766] {
        let differs = |bytes: &usize| length > 255 && *bytes < length && bytes.is_multiple_of(255);
        for bytes in (0..=length + 3).filter(|bytes| !differs(bytes)) {
            let count = bytes.saturating_sub(1).min(length) as u32;
            for (description, log) in nacked(length, bytes) {
                check_whole(description, &mut vec![0x12; length], &log, (Done, count));
            }
        }
    }
}

#[test]
fn the_examples_of_r_6() {
    let write = |length, answers: &[u32]| {
        let description = Description {
            call: 26,
            ..Default::default()
        };
        let run = run(&description, &mut vec![0; length], answers);
        (run.outcome.word(), run.value, run.used, run.log.len())
    };
    // In both document 02 counts 254.
    for status in [TXIS, TXIS | TXE] {
        let between = [&[0][..], &[status; 255], &[0, 0x11, 1, 1]].concat();
        assert_eq!(write(256, &between), ("done", 255, 260, 519));
        assert_eq!(write(511, &between), ("panicked", 0, 260, 519));
    }
    // A zero counts as put out, a flush does not.
    assert_eq!(write(1, &[0, 2, 2, 0x10, 0, 1]), ("done", 1, 6, 11));
    assert_eq!(write(1, &[0, 2, 0x10, 2, 1]), ("done", 0, 5, 10));
}

/// Document 02 gives ADDCODE, 120 here, wherever OA1MODE is 0.
#[test]
fn oa1_is_the_address_of_a_header_whatever_oa1mode_is() {
    let gives = |own, address| {
        let status = r(ISR, ADDCODE_78 | ADDR | TXE);
        let log = [status, w(ICR, ADDR), r(OAR1, own)];
        check_plain(8, &log, (EventWrite, address));

        let mut log = vec![r(ISR, ADDCODE_78 | DIR | ADDR | TXE)];
        log.extend(MANUAL);
        log.extend([r(OAR1, own), w(ICR, ADDR)]);
        check_plain(24, &log, (EventRead, address));
    };
    gives(0, 0); // the smallest input
    gives(0x80F0, 240); // the board's own address
    gives(0x8084, 0x84); // another, so the match is one of the secondary address
    gives(0x83FF, 0x3FF);
    // With OA1MODE 1, whatever OA1EN is, this is document 02's address too.
    gives(0x8523, 291);
    gives(0x0523, 291);
    gives(0xFFFF_FFFF, 0x3FF);
}

#[test]
fn next_to_a_header_oar1_is_not_read() {
    for code in [0x77, 0x7C] {
        let log = [r(ISR, code << 17 | ADDR | TXE), w(ICR, ADDR)];
        check_plain(8, &log, (EventWrite, code));
    }
}

/// Given a list that is not cut.
#[test]
fn a_long_operation_panics_when_it_is_reached() {
    let check = |operations: &[u32], log: &[Access]| {
        let description = Description {
            call: 7,
            operations: Cow::Borrowed(operations),
            ..Default::default()
        };
        let length: u32 = operations.iter().map(|word| word & 0xFFFF).sum();
        check_panic(description, length as usize, log, PanicKind::Long);
    };
    check(&[256], &[]);
    check(&[READ | 65_535], &[]);
    let first = |control, ending| [w(CR2, control), r(ISR, TXE), r(CR2, 0), r(ISR, ending)];
    check(&[0, 256], &first(0x0100_2000, TCR));
    check(&[0, READ | 256], &first(0x2000, TC));
}

#[test]
fn an_empty_buffer_panics_in_an_auto_transfer() {
    let auto = |call| Description {
        call,
        ..Default::default()
    };
    check_panic(auto(9), 0, &[], PanicKind::Empty);
    check_panic(auto(10), 0, &[], PanicKind::Empty);
    let event = ADDCODE_50 | ADDR | TXE;
    let log = |event| [r(ISR, event), w(ICR, ADDR)];
    check_panic(auto(11), 0, &log(event), PanicKind::Empty);
    check_panic(auto(12), 0, &log(event | DIR), PanicKind::Empty);
}

/// Call 3 with this configuration writes these words.
fn check_configuration(configuration: Configuration, log: &[Access]) {
    let description = Description {
        call: 3,
        configuration: Some(configuration),
        ..Default::default()
    };
    check(description, &mut [], log, (Done, 0));
}

#[test]
fn a_mask_of_255_panics_beside_a_secondary_address() {
    let description = Description {
        call: 3,
        configuration: Some(Configuration {
            mask: Some(255),
            ..TARGET
        }),
        ..Default::default()
    };
    check_panic(description, 0, &[w(OAR1, 0x84)], PanicKind::Mask);
}

#[test]
fn other_wide_masks_are_cut() {
    for (mask, oar2) in [(7, 0x42), (8, 0x142), (254, 0x742)] {
        let mask = Some(mask);
        let log = [w(OAR1, 0x84), w(OAR2, oar2)];
        check_configuration(Configuration { mask, ..TARGET }, &log);
    }
}

#[test]
fn a_mask_without_a_secondary_address_is_not_looked_at() {
    for mask in [7, 255] {
        let alone = Configuration {
            secondary_address: None,
            mask: Some(mask),
            ..TARGET
        };
        check_configuration(alone, &[w(OAR1, 0x84)]);
    }
}

#[test]
fn wide_addresses_of_a_target_are_cut_to_their_fields() {
    let own = |own_address, ten_bit| Configuration {
        own_address,
        ten_bit,
        ..Default::default()
    };
    check_configuration(own(0x80, false), &[w(OAR1, 0x100)]);
    check_configuration(own(0xFFFF, false), &[w(OAR1, 0x3FE)]);
    check_configuration(own(0x400, true), &[w(OAR1, 0x400)]);
    check_configuration(own(0xFFFF, true), &[w(OAR1, 0x7FF)]);
    for (address, oar2) in [(0x80, 0), (0xFF, 0xFE)] {
        let secondary = Configuration {
            secondary_address: Some(address),
            ..Default::default()
        };
        check_configuration(secondary, &[w(OAR1, 0), w(OAR2, oar2)]);
    }
}

#[test]
fn wide_addresses_of_a_transaction_are_cut_to_sadd() {
    for (address, ten_bit, control) in [
        (0x80, false, 0x0201_2100),
        (0xFF, false, 0x0201_21FE),
        (0x400, true, 0x0201_2800),
        (0xFFFF, true, 0x0201_2BFF),
    ] {
        let description = Description {
            call: 7,
            address,
            ten_bit,
            operations: Cow::Borrowed(&[1]),
            ..Default::default()
        };
        let log = [
            w(CR2, control),
            r(ISR, TXE),
            r(CR2, 0),
            r(ISR, TXIS),
            w(TXDR, 0x12),
            r(ISR, STOPF),
            w(ICR, STOPF),
        ];
        check(description, &mut [0x12], &log, (Done, 0));
    }
}

#[test]
fn operations_after_the_64th_are_performed() {
    let mut log = Vec::new();
    for (control, ending) in [(0x0100_2000, TCR)]
        .into_iter()
        .chain([(0x0100_0000, TCR); 63])
        .chain([(0x0200_0000, STOPF)])
    {
        log.extend([w(CR2, control), r(ISR, TXE), r(CR2, 0), r(ISR, ending)]);
    }
    log.push(w(ICR, STOPF));
    let description = Description {
        call: 7,
        operations: Cow::Borrowed(&[0; 65]),
        ..Default::default()
    };
    check(description, &mut [], &log, (Done, 0));
}

/// Given a list that is cut.
#[test]
fn lists_of_over_65535_bytes_are_transferred() {
    let piece = |control, size, ending| {
        let mut log = vec![w(CR2, control), r(ISR, TXE), r(CR2, 0)];
        log.extend([r(ISR, TXIS), w(TXDR, 0x12)].repeat(size));
        log.push(r(ISR, ending));
        log
    };
    let whole = piece(0x01FF_0000, 255, TCR);
    let log = [
        &piece(0x01FF_2000, 255, TCR),
        &whole.repeat(127)[..],
        &piece(0x0180_0000, 128, TCR),
        &whole.repeat(128),
        &piece(0x0280_0000, 128, STOPF),
        &[w(ICR, STOPF)],
    ]
    .concat();
    let description = Description {
        call: 7,
        operations: cut(&[32_768; 2]),
        ..Default::default()
    };
    let mut buffer = vec![0x12; 65_536];
    check_whole(description, &mut buffer, &log, (Done, 0));
    assert!(buffer.iter().all(|&it| it == 0x12));
}

/// The accesses of a transfer in either mode, after its event, up to so many of its bytes and into
/// the next block, if there is one.
fn moved(call: u32, length: usize, bytes: usize) -> Vec<Access> {
    let reads = matches!(call, 9 | 11 | 25 | 27);
    let most = if call < 16 { length } else { 255 };
    let mut log = Vec::new();
    for start in (0..length.min(bytes + 1)).step_by(most) {
        let block = (length - start).min(most);
        if call >= 16 {
            log.extend([r(CR2, 0), w(CR2, (block as u32) << 16)]);
            log.extend((start == 0).then_some(w(ICR, ADDR)));
        }
        let count = block.min(bytes - start);
        log.extend(match reads {
            true => [r(ISR, RXNE), r(RXDR, 0x71)].repeat(count),
            false => [r(ISR, TXIS), w(TXDR, 0x12)].repeat(count),
        });
    }
    log
}

/// A transfer of a full buffer.
fn transfer(call: u32, length: usize) -> Vec<Access> {
    let mut log = moved(call, length, length);
    match call {
        10 | 12 | 26 | 28 => {
            log.extend([r(ISR, TXIS), w(TXDR, 0)]);
            log.extend(NACK);
        }
        9 | 11 => log.extend([r(CR2, 0), w(CR2, 0x8000)]),
        _ => {}
    }
    log
}

#[test]
fn buffers_of_over_65535_bytes_are_transferred() {
    let length = 65_536;
    for call in [9, 10, 11, 12, 25, 26, 27, 28] {
        let event = ADDCODE_50 | ADDR | TXE;
        let mut log = match call {
            11 => vec![r(ISR, event), w(ICR, ADDR)],
            12 => vec![r(ISR, event | DIR), w(ICR, ADDR)],
            27 => [&[r(ISR, event)][..], &MANUAL, &MANUAL_WRITE].concat(),
            28 => manual_read_event(),
            _ => vec![],
        };
        log.extend(transfer(call, length));
        let description = Description {
            call,
            ..Default::default()
        };
        let mut buffer = vec![0x12; length];
        check_whole(description, &mut buffer, &log, (Done, length as u32));
        let byte = if matches!(call, 9 | 11 | 25 | 27) {
            0x71
        } else {
            0x12
        };
        assert!(buffer.iter().all(|&it| it == byte));
    }
}

#[test]
fn a_buffer_is_not_looked_at_by_calls_without_bytes() {
    let log = [r(CR2, 0x0100_0000), w(CR2, 0)];
    check_bytes(14, &[9; 65_536], &log, (Done, 0), &[9; 65_536]);
}

#[test]
#[should_panic(expected = "there is no call 16")]
fn a_mistake_of_the_caller_is_no_outcome() {
    check_plain(16, &[], (Done, 0));
}
