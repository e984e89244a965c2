//! The calls that are gone through in full, and the words that are tried as answers.

use oracle::Asked;

use crate::calls::build::{call, counted, transaction, READ};
use crate::calls::case::Case;
use crate::calls::chip::*;
use crate::calls::known::MANUAL_WRITES;
use crate::calls::pieces::sum;
use crate::rattle::{self, saved};

/// Status words: each flag alone, and flags together where the order in which they are looked at
/// matters.
const STATUS: [u32; 23] = [
    0,
    TXE,
    TXIS,
    RXNE,
    ADDR,
    NACKF,
    STOPF,
    TC,
    TCR,
    BERR,
    ARLO,
    TXIS | TXE,
    ADDR | DIR | TXE | addcode(0x50),
    ADDR | TXE | addcode(0x7A),
    ADDR | DIR | addcode(0x78),
    ADDR | STOPF,
    RXNE | STOPF,
    RXNE | NACKF,
    NACKF | TXIS,
    NACKF | STOPF | TC,
    TC | TCR | STOPF,
    BERR | ARLO,
    ARLO | NACKF | TXIS,
];

/// Words of OAR1: OA1MODE and OA1EN are both clear, one of them set, the other, and both; OA1 is none,
/// a seven-bit address as it is written there, here of 0x78, another, or all ones.
pub const OWN: [u32; 6] = [
    0,
    OA1EN | 0x78 << 1,
    !OA1MODE,
    OA1MODE | 0x123,
    OA1EN | OA1MODE | 0x123,
    u32::MAX,
];

/// The words that are tried where the register at this offset is read. A received byte tells its
/// place, so that two of them are not the same.
pub fn of(offset: u32, state: &[u8]) -> Vec<u32> {
    match offset {
        ISR => STATUS.to_vec(),
        RXDR => {
            let place = |number| rattle::word(state, number);
            let byte = 0x5A + 7 * place(saved::BYTE) + 91 * place(saved::PIECE);
            vec![0xABCD_EF00 | byte & 0xFF]
        }
        OAR1 => OWN.to_vec(),
        // Whatever flag is looked at is clear, or set.
        _ => vec![0, u32::MAX],
    }
}

/// Every listed call, in both modes of acknowledgement, with small lists and buffers.
pub fn small() -> Vec<Case> {
    [set_up(), transactions(), targets()].concat()
}

fn set_up() -> Vec<Case> {
    let timing = 0x60FB_1C39;
    let mut cases = vec![
        call(1).timed(timing),
        call(1).timed(!0).owning(0x42, Some(0x21), Some(2)),
        call(1).timed(timing).owning_ten_bit(0x3FF, None),
        call(2).timed(!0).owning(0x42, Some(0x21), None),
        call(2).timed(timing).owning_ten_bit(0x2A5, Some(6)),
        call(3).owning(0x7F, None, None),
        call(3).owning(0x42, Some(0x7F), Some(6)),
        call(3).owning_ten_bit(0x155, None),
        call(6),
        call(14),
        call(15),
    ];
    for kind in 0..3 {
        cases.extend([4, 5].map(|number| call(number).listening(kind)));
    }
    cases
}

/// A transaction with bytes for its lengths.
pub fn operations(list: &[u32]) -> Case {
    transaction(list).bytes(&counted(sum(list)))
}

fn transactions() -> Vec<Case> {
    let lists: [&[u32]; 14] = [
        &[],
        &[0],
        &[READ],
        &[1],
        &[READ | 1],
        &[2],
        &[READ | 2],
        &[1, READ | 1],
        &[READ | 1, 1],
        &[1, 1],
        &[READ | 1, READ | 1],
        &[0, READ | 1],
        &[0, 0],
        &[1, READ, 1],
    ];
    let mut cases: Vec<Case> = lists.map(operations).to_vec();
    cases.push(operations(&[1, READ | 1]).ten_bit(0x2A5));
    cases.push(operations(&[READ | 1, READ | 1]).ten_bit(0x15A));
    cases
}

fn targets() -> Vec<Case> {
    let mut cases = [8, 13, 24, 29].map(call).to_vec();
    for number in [9, 10, 11, 12, 25, 26, 27, 28] {
        let least = usize::from(number < 16);
        let lengths = [least, 2, 3];
        let lent = lengths.map(|length| call(number).bytes(&counted(length)));
        cases.extend(lent);
    }
    cases.extend([25, 26].map(|number| call(number).bytes(&counted(1))));
    cases
}

/// Calls whose lengths lie around a block or a piece, and long lists.
pub fn large() -> Vec<Case> {
    let manual = |number, length| call(number).bytes(&counted(length));
    let mut cases = vec![
        operations(&[255]),
        operations(&[READ | 255]),
        operations(&[254, 2]),
        operations(&[READ | 254, 1, READ | 2]),
        operations(&[256]),
        operations(&[READ | 256]),
        operations(&[1, READ | 256]).ten_bit(0x123),
        operations(&[READ | 511, 257, 0]),
        operations(&[1; 64]),
        operations(&[[READ | 1, 1]; 32].concat()),
        manual(9, 300),
        manual(10, 300),
    ];
    for number in [25, 26] {
        cases.extend([254, 255, 256, 257].map(|length| manual(number, length)));
    }
    cases.extend([25, 26, 27, 28].map(|number| manual(number, 511)));
    cases.push(manual(28, 256));
    cases.extend(MANUAL_WRITES.map(|number| manual(number, 766)));
    cases
}

/// What is told of a call that is gone through.
pub fn name(asked: &Asked, length: usize) -> String {
    match asked.call {
        7 => {
            let operations = asked.operations.len();
            format!("call 7 with {operations} operations and {length} bytes")
        }
        call => format!("call {call} with {length} bytes"),
    }
}
