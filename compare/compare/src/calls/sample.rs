//! The fixed sample of calls that is stored: each listed call in several ways, each outcome, each
//! refusal that a begin gives, and the lengths around a block.

use super::build::*;
use super::case::Case;
use super::chip::*;
use super::expected;

const HOW: &str =
    "# Described calls, as firmware/huskerivory/tests/stored_calls.rs reads them; made in compare/ by:\n\
                   # cargo run --release --offline -- store-calls --inputs FILE --answers FILE\n";

/// The text of the calls and that of the expected answers.
pub fn texts() -> (String, String) {
    let calls = calls();
    let mut inputs = HOW.to_string();
    let mut answers = String::new();
    for (comment, case) in &calls {
        inputs.push('\n');
        inputs.push_str(&case.text(comment));
        answers.push_str(&expected::of(case));
    }
    answers.push_str(&format!("calls {}\n", calls.len()));
    (inputs, answers)
}

pub type Described = (&'static str, Case);

pub fn calls() -> Vec<Described> {
    [
        set_up(),
        transactions(),
        events(),
        receptions(),
        transmissions(),
        blocks(),
        refusals(),
    ]
    .concat()
}

pub fn set_up() -> Vec<Described> {
    let timing = 0x60FB_1C39;
    vec![
        ("a controller alone", call(1).timed(timing).answers(&[1])),
        (
            "a controller that is a target too; bits 24 to 27 of the timing are ignored",
            call(1)
                .timed(!0)
                .owning(0x42, Some(0x21), Some(2))
                .answers(&[!0]),
        ),
        (
            "without a configuration its words are not looked at",
            call(1)
                .owning(4_000, Some(999), Some(99))
                .asking(|asked| asked.configured = false),
        ),
        (
            "a target: neither SCLL nor SCLH",
            call(2)
                .timed(!0)
                .owning(0x42, Some(0x21), None)
                .answers(&[1, !1]),
        ),
        (
            "a target of ten bits, left before it is enabled",
            call(2)
                .timed(timing)
                .owning_ten_bit(0x3FF, None)
                .answers(&[0x1_1001]),
        ),
        ("own address alone", call(3).owning(0x7F, None, None)),
        (
            "own address of ten bits; the mask has no use",
            call(3).owning_ten_bit(0x2A5, Some(6)),
        ),
        (
            "secondary address with a mask",
            call(3).owning(0x42, Some(0x7F), Some(6)),
        ),
        ("general call on", call(4).listening(0).answers(&[1])),
        ("primary address on", call(4).listening(1).answers(&[0x84])),
        (
            "secondary address on",
            call(4).listening(2).answers(&[0x342]),
        ),
        ("general call off", call(5).listening(0).answers(&[!0])),
        ("primary address off", call(5).listening(1).answers(&[!0])),
        (
            "secondary address off",
            call(5).listening(2).answers(&[0x8342]),
        ),
        (
            "reset, with two polls",
            call(6).answers(&[0x1_0001, 1, 1, 1, 1, 0, 0x1_0000]),
        ),
        ("reset, left in its polls", call(6).answers(&[1, 1, 1, 1])),
        ("acknowledge", call(14).answers(&[!0])),
        ("acknowledge, without an answer", call(14)),
        (
            "not acknowledge",
            call(15).answers(&[0x0101_0000, 0x0101_8000]),
        ),
        ("not acknowledge, left half way", call(15).answers(&[0])),
    ]
}

pub fn transactions() -> Vec<Described> {
    vec![
        (
            "two bytes out, as document 01 prints it",
            transaction(&[2])
                .bytes(&[0x12, 0x34])
                .answers(&[1, 0x0202_00A0, 3, 3, 0x21]),
        ),
        ("no operation", transaction(&[]).answers(&[1])),
        (
            "a byte out and two in, at an address of ten bits, with a repeated start",
            transaction(&[1, READ | 2])
                .ten_bit(0x2A5)
                .bytes(&[0x12, 0, 0])
                .answers(&[TXE, START, TXE, 0, TXE, TXE | TXIS, TXE, TXE | TC])
                .answers(&[TXE, 0, TXE | NACKF, RXNE | STOPF | ADDR, !0x54, RXNE, 0xCD])
                .answers(&[TXE, STOPF]),
        ),
        (
            "two operations of the same direction: a reload",
            transaction(&[READ | 1, READ])
                .zeros(1)
                .answers(&[TXE, 0, RXNE, 0x11, TC, TCR, TXE, 0, STOPF]),
        ),
        (
            "a byte is not acknowledged, one is flushed, and the stop follows",
            transaction(&[2]).bytes(&[0x12, 0x34]).answers(&[
                TXE,
                0,
                TXIS,
                NACKF | TXIS | STOPF,
                TXIS,
                0,
                TXE,
                TXE | STOPF,
            ]),
        ),
        (
            "the address is not acknowledged",
            transaction(&[1])
                .bytes(&[0x12])
                .answers(&[NACKF, TXE, TXE, STOPF]),
        ),
        (
            "a bus error goes before all else, and a stop follows",
            transaction(&[1])
                .bytes(&[0x12])
                .answers(&[BERR | ARLO | NACKF, 0, STOPF]),
        ),
        (
            "a newer error takes the place of the first",
            transaction(&[1])
                .bytes(&[0x12])
                .answers(&[BERR, ARLO | STOPF]),
        ),
        (
            "stopped while reading",
            transaction(&[READ | 2])
                .bytes(&[1, 2])
                .answers(&[TXE, 0, RXNE, 0x77, STOPF, STOPF]),
        ),
        (
            "left in the middle of a read",
            transaction(&[READ | 3])
                .bytes(&[1, 2, 3])
                .answers(&[TXE, 0, RXNE, 0x71, RXNE, 0x72, RXNE]),
        ),
        (
            "255 bytes out",
            transaction(&[255])
                .bytes(&counted(255))
                .answers(&[TXE, 0])
                .asks_for(255)
                .answers(&[STOPF]),
        ),
        (
            "256 bytes out: 255 and 1, joined by a reload",
            transaction(&[256])
                .zeros(256)
                .answers(&[1, 0])
                .answers(&[2; 255])
                .answers(&[0x80, 1, 0, 2, 0x20]),
        ),
        (
            "a byte out and 256 in, at an address of ten bits",
            transaction(&[1, READ | 256])
                .ten_bit(0x123)
                .bytes(&[&[0x12][..], &[0; 256]].concat())
                .goes_through(),
        ),
        (
            "no byte out: one empty piece",
            transaction(&[0]).answers(&[1, 0, 0x20]),
        ),
        (
            "510 bytes out are two pieces, after no byte and before one in",
            transaction(&[0, 510, READ | 1])
                .bytes(&[&counted(510)[..], &[0]].concat())
                .goes_through(),
        ),
        (
            "TC and a stop are not awaited inside an operation",
            transaction(&[256])
                .bytes(&counted(256))
                .answers(&[TXE, 0])
                .asks_for(255)
                .answers(&[TC, STOPF, TC | TCR, TXE, 0, TXIS, TC | TCR, STOPF]),
        ),
        (
            "a byte of the second piece is not acknowledged",
            transaction(&[256])
                .bytes(&counted(256))
                .answers(&[TXE, 0])
                .asks_for(255)
                .answers(&[TCR, TXE, 0])
                .nacks()
                .answers(&[STOPF]),
        ),
        (
            "arbitration is lost in the second piece of a read",
            transaction(&[READ | 256])
                .zeros(256)
                .answers(&[TXE, 0])
                .receives(255)
                .answers(&[TCR, ARLO, STOPF]),
        ),
        (
            "64 operations without a byte",
            transaction(&[0; 64])
                .answers(&[TXE, 0, TCR].repeat(63))
                .answers(&[TXE, 0, STOPF]),
        ),
    ]
}

pub fn events() -> Vec<Described> {
    vec![
        (
            "the controller reads",
            call(8).answers(&[TXE, MATCH | DIR | STOPF]),
        ),
        (
            "the controller writes to a target of ten bits; a byte is flushed",
            call(8).answers(&[HEADER & !TXE, 0x86A5]),
        ),
        (
            "the controller writes to a board at 0x78: OA1MODE is 0, so document 02 gives ADDCODE, \
             where the Rust gives OA1",
            call(8).answers(&[BOARD, 0x80F0]),
        ),
        (
            "the same match with OA1MODE 1: the target has ten bits, and OA1 is its address",
            call(8).answers(&[BOARD, 0x8523]),
        ),
        ("a stop", call(8).answers(&[TXE, STOPF])),
        (
            "a bus error beside a match",
            call(8).answers(&[BERR | MATCH]),
        ),
        ("nothing yet", call(8).answers(&[TXE, 0, TXE])),
        (
            "a stop is awaited, and comes",
            call(13).answers(&[TXE, STOPF]),
        ),
        (
            "a stop is awaited, and the controller reads",
            call(13).answers(&[MATCH | DIR]),
        ),
        (
            "a stop is awaited, and the controller writes",
            call(13).answers(&[MATCH]),
        ),
        (
            "manual: the controller reads; a byte is flushed",
            call(24).answers(&[MATCH & !TXE | DIR]).answers(&MANUAL),
        ),
        (
            "manual: the controller writes to a target of ten bits",
            call(24)
                .answers(&[HEADER])
                .answers(&MANUAL)
                .answers(&[0x6A5, 1, 0x8000]),
        ),
        (
            "manual: the controller reads from a board at 0x78",
            call(24).answers(&[BOARD | DIR, 0, 0, 0x80F0]),
        ),
        ("manual: a stop", call(24).answers(&[STOPF])),
        (
            "manual: a stop is awaited, and comes",
            call(29).answers(&[STOPF]),
        ),
        (
            "manual: a stop is awaited; the event is finished before it is the wrong one",
            call(29).answers(&[MATCH | DIR]).answers(&MANUAL),
        ),
        (
            "manual: the same of a write",
            call(29).answers(&[MATCH]).answers(&MANUAL_WRITE),
        ),
    ]
}

pub fn receptions() -> Vec<Described> {
    vec![
        (
            "two bytes in; a NACK is not looked at",
            call(9)
                .zeros(2)
                .answers(&[RXNE, 0x171, TXE | NACKF, RXNE | STOPF, 0x72, 0x1_0000]),
        ),
        (
            "a new address after one of two bytes",
            call(9).bytes(&[9, 5]).answers(&[RXNE, 0x71, ADDR, 0]),
        ),
        ("arbitration is lost", call(9).bytes(&[5]).answers(&[ARLO])),
        (
            "256 bytes in, in one go",
            call(9).zeros(256).receives(256).answers(&[0]),
        ),
        (
            "a byte in after a write event",
            call(11).zeros(1).answers(&[MATCH, RXNE, 0x71, 0]),
        ),
        (
            "a read event instead",
            call(11).bytes(&[9]).answers(&[MATCH | DIR]),
        ),
        ("a stop instead", call(11).bytes(&[9]).answers(&[STOPF])),
    ]
}

pub fn transmissions() -> Vec<Described> {
    vec![
        (
            "a byte out, filled with zeros, and a byte flushed",
            call(10).bytes(&[0x12]).answers(&[
                TXE | TXIS,
                TXE,
                TXIS,
                TXIS,
                NACKF | TXIS,
                TXIS,
                TXE,
            ]),
        ),
        ("a NACK at once", call(10).bytes(&[0x12]).nacks()),
        (
            "a bus error",
            call(10).bytes(&[0x12]).answers(&[TXIS, BERR]),
        ),
        (
            "two bytes out after a read event, of which one is counted",
            call(12)
                .bytes(&[0x12, 0x34])
                .answers(&[MATCH & !TXE | DIR, TXIS, TXIS, NACKF, 0, 0]),
        ),
        (
            "a write event instead",
            call(12).bytes(&[9]).answers(&[MATCH]),
        ),
        ("a stop instead", call(12).bytes(&[9]).answers(&[STOPF])),
    ]
}

pub fn blocks() -> Vec<Described> {
    let second = |case: Case| case.answers(&[0x00FF_0000]);
    vec![
        ("manual: no byte in", call(25).answers(&[1])),
        (
            "manual: 255 bytes in",
            call(25).zeros(255).answers(&[0x0100_0000]).receives(255),
        ),
        (
            "manual: 256 bytes in",
            second(call(25).zeros(256).answers(&[0]).receives(255)).receives(1),
        ),
        (
            "manual: stopped after 510 of 511 bytes",
            second(second(call(25).zeros(511).answers(&[0]).receives(255)).receives(255))
                .answers(&[STOPF]),
        ),
        ("manual: no byte out", call(26)),
        (
            "manual: 255 bytes out, then two zeros",
            call(26)
                .bytes(&counted(255))
                .answers(&[0])
                .asks_for(257)
                .nacks(),
        ),
        (
            "manual: 256 bytes out, the last not counted",
            second(call(26).bytes(&counted(256)).answers(&[0]).asks_for(255))
                .asks_for(1)
                .nacks(),
        ),
        (
            "manual: 511 bytes out and a zero",
            second(second(call(26).bytes(&counted(511)).answers(&[0]).asks_for(255)).asks_for(255))
                .asks_for(2)
                .nacks(),
        ),
        (
            "manual: a NACK after five bytes of the first of two blocks",
            call(26)
                .bytes(&counted(256))
                .answers(&[0])
                .asks_for(5)
                .nacks(),
        ),
        (
            "manual: a zero after a byte counts as put out",
            call(26).bytes(&[0x12]).answers(&[0, 2, 2, 0x10, 0, 1]),
        ),
        (
            "manual: a byte that is flushed does not count as put out",
            call(26).bytes(&[0x12]).answers(&[0, 2, 0x10, 2, 1]),
        ),
        (
            "manual: a NACK at byte 0 of the first of two blocks, where the Rust panics",
            manual_write(26, 256, 0).nacks(),
        ),
        (
            "manual: a NACK at byte 0 of the second of two blocks: document 02 counts 254, the Rust \
             255",
            manual_write(26, 256, 255).nacks(),
        ),
        (
            "manual: a NACK at byte 0 of the second of three blocks, where the Rust panics: \
             document 02 counts 254",
            second(call(26).bytes(&counted(511)).answers(&[0]).asks_for(255)).nacks(),
        ),
        (
            "manual: a NACK at byte 0 of the third of three blocks, and a byte flushed: document 02 \
             counts 509, the Rust 510",
            manual_write(26, 511, 510).answers(&[NACKF | TXIS, TXIS, 0]),
        ),
        (
            "manual: a write event without a byte to take",
            call(27).answers(&[MATCH]).answers(&MANUAL_WRITE),
        ),
        (
            "manual: a write event and two bytes",
            call(27)
                .zeros(2)
                .answers(&[MATCH])
                .answers(&MANUAL_WRITE)
                .answers(&[0x0100_0000, RXNE, 0x71, RXNE, 0x72]),
        ),
        (
            "manual: a read event instead",
            call(27).zeros(2).answers(&[MATCH | DIR]).answers(&MANUAL),
        ),
        (
            "manual: a read event and two bytes",
            call(28)
                .bytes(&[0x12, 0x34])
                .answers(&[MATCH | DIR])
                .answers(&MANUAL)
                .answers(&[0])
                .asks_for(3)
                .nacks(),
        ),
        (
            "manual: a read event, and a NACK at byte 0 of the second of two blocks",
            manual_write(28, 257, 255).nacks(),
        ),
        (
            "manual: a write event instead",
            call(28)
                .bytes(&[0x12])
                .answers(&[MATCH])
                .answers(&MANUAL_WRITE),
        ),
        (
            "manual: a stop instead",
            call(28).bytes(&[0x12]).answers(&[STOPF]),
        ),
    ]
}

fn refusals() -> Vec<Described> {
    let list = |operations: &[u32], bytes| transaction(operations).zeros(bytes);
    vec![
        ("no such call: 0", call(0).answers(&[1])),
        ("no such call: the manual form of 14", call(30)),
        ("no such listen kind", call(4).listening(3)),
        ("no such listen kind", call(5).listening(!0)),
        (
            "an address of more than seven bits, before a buffer that is too long",
            list(&[32_768; 2], 65_536).asking(|asked| asked.address = 128),
        ),
        (
            "an address of more than ten bits",
            list(&[], 0).ten_bit(1_024),
        ),
        (
            "an own address of more than seven bits",
            call(1).owning(128, None, None),
        ),
        (
            "an own address of more than ten bits",
            call(3).owning_ten_bit(1_024, None),
        ),
        (
            "a secondary address of more than seven bits",
            call(2).owning(0, Some(128), None),
        ),
        (
            "a mask of more than six bits",
            call(3).owning(0, None, Some(7)),
        ),
        ("65 operations", list(&[0; 65], 0)),
        (
            "an operation with a bit that means nothing",
            list(&[0x2_0000], 0),
        ),
        ("a buffer that is a byte too long", list(&[1], 2)),
        (
            "a buffer that is a byte too short, for a long operation",
            list(&[256], 255),
        ),
        (
            "65 operations, of which one is long",
            list(&[&[0; 64][..], &[256]].concat(), 256),
        ),
        (
            "a wrong sum, before a buffer that is too long",
            list(&[32_768; 2], 65_537),
        ),
        (
            "operations of too many bytes",
            list(&[32_768, READ | 32_768], 65_536),
        ),
        ("nothing to take in", call(9)),
        ("nothing to put out", call(10)),
        (
            "nothing to take in after an event",
            call(11).answers(&[MATCH]),
        ),
        (
            "nothing to put out after an event",
            call(12).answers(&[MATCH | DIR]),
        ),
    ]
}

#[cfg(test)]
mod tests {
    use super::super::generate::LISTED;
    use super::super::run::Run;
    use super::*;
    use std::collections::BTreeSet;

    #[test]
    fn every_call_and_every_end_is_there() {
        let calls = calls();
        let accepted = |number| {
            let its = calls.iter().filter(|(_, case)| case.asked.call == number);
            its.filter(|(_, case)| case.asked.refusal(case.buffer.len()).is_none())
                .count()
        };
        for number in LISTED {
            assert!(accepted(number) >= 2, "call {number}");
        }
        let ends: BTreeSet<&str> = calls.iter().map(|(_, case)| Run::of(case).word).collect();
        assert_eq!(ends.len(), 12);
        let refusals: BTreeSet<u32> = calls
            .iter()
            .filter_map(|(_, case)| case.asked.refusal(case.buffer.len()))
            .collect();
        assert!(refusals.into_iter().eq([8, 10, 11, 12]));
        for length in [0, 255, 256, 511] {
            let of_length = |(_, case): &&Described| case.buffer.len() == length;
            assert!(calls.iter().filter(of_length).count() >= 2);
        }
    }

    /// Answers that nothing reads would hide a mistake in a list.
    #[test]
    fn answers_are_used() {
        for (comment, case) in calls() {
            let expected = expected::of(&case);
            let used = format!(" {} ", case.answers.len());
            let line = expected.lines().next().unwrap();
            let unread = line.ends_with(" 0 0");
            assert!(unread || line.contains(&used), "{comment}: {line}");
        }
    }
}
