//! The known differences in calls that are accepted: where documents 01 and 02 have another end than
//! the Rust. Each is a row of docs/DIFFERENCES.md that excuses its own cases alone, and is counted.

use oracle::{Access, Outcome, PanicKind};

use super::chip::*;

/// The manual writes, whose total document 02 counts over the whole call.
pub const MANUAL_WRITES: [u32; 2] = [26, 28];

/// The bytes of a manual block that is not the last.
const BLOCK: usize = 255;

#[derive(Clone, Copy, Debug, PartialEq, Eq, PartialOrd, Ord)]
pub enum Known {
    /// At a NACK at byte 0 of a manual write's block 0, which is not the last, the Rust panics. The
    /// total is 0.
    FirstBlock,
    /// At byte 0 of a later block that is not the last it panics too. The total is document 02's
    /// the bytes put out so far less one.
    LaterBlock,
    /// At byte 0 of a later block that is the last it counts all bytes put out so far. The total is
    /// document 02's, one less.
    LastBlock,
    /// An event's ADDCODE is that of a ten-bit header though OA1MODE is 0. The Rust gives OA1 as its
    /// address, document 02 ADDCODE.
    Address,
}

impl Known {
    pub const ALL: [Known; 4] = [
        Known::FirstBlock,
        Known::LaterBlock,
        Known::LastBlock,
        Known::Address,
    ];

    pub fn words(self) -> &'static str {
        match self {
            Known::FirstBlock => "NACK at byte 0 of block 0, not the last, where the Rust panics",
            Known::LaterBlock => {
                "NACK at byte 0 of a later block, not the last, where the Rust panics"
            }
            Known::LastBlock => {
                "total of a NACK at byte 0 of a later block, the last, where the Rust counts one more"
            }
            Known::Address => {
                "address of an event left aside, ADDCODE being 78 to 7B and OA1MODE 0, where the \
                 Rust gives OA1"
            }
        }
    }

    /// What is known of a manual write that meets a NACK after so many bytes of its buffer.
    pub fn at_nack(put: usize, length: usize) -> Option<Known> {
        if put >= length || !put.is_multiple_of(BLOCK) {
            return None;
        }
        let is_last = length - put <= BLOCK;
        match (put, is_last) {
            (0, true) => None,
            (0, false) => Some(Known::FirstBlock),
            (_, false) => Some(Known::LaterBlock),
            (_, true) => Some(Known::LastBlock),
        }
    }
}

/// How an accepted call has to end.
#[derive(Debug, PartialEq)]
pub struct End {
    /// Document 01's word of the outcome.
    pub word: &'static str,
    pub value: u32,
    /// What the Rust does otherwise.
    pub known: Option<Known>,
}

impl End {
    /// The end of the Rust's run of a call with a buffer of this length, but for what is known to
    /// differ. What no row tells is an error.
    pub fn of(
        call: u32,
        length: usize,
        outcome: &Outcome,
        value: u32,
        log: &[Access],
    ) -> Result<End, String> {
        let is_manual_write = MANUAL_WRITES.contains(&call);
        let (word, (value, known)) = match outcome {
            Outcome::Panicked(panic) if is_manual_write && panic.kind == PanicKind::NackAtOnce => {
                ("done", total(None, length, log)?)
            }
            Outcome::Panicked(panic) => {
                return Err(format!("a panic of the Rust: {}", panic.message))
            }
            Outcome::Done if is_manual_write => (outcome.word(), total(Some(value), length, log)?),
            Outcome::EventRead | Outcome::EventWrite => (outcome.word(), address(value, log)?),
            _ => (outcome.word(), (value, None)),
        };
        Ok(End { word, value, known })
    }
}

/// The total of a manual write that has this one in the Rust, or none where it panics. Document 02
/// has the bytes put out less one, at least 0 and at most the buffer's length.
fn total(
    given: Option<u32>,
    length: usize,
    log: &[Access],
) -> Result<(u32, Option<Known>), String> {
    let put = put_out(log);
    let total = put.saturating_sub(1).min(length) as u32;
    let known = Known::at_nack(put, length);
    let expected = match known {
        None => Some(total),
        Some(Known::LastBlock) => Some(put as u32),
        Some(_) => None,
    };
    if given == expected {
        return Ok((total, known));
    }
    let words = |total: Option<u32>| total.map_or("a panic".to_string(), |it| it.to_string());
    let [expected, given] = [expected, given].map(words);
    Err(format!(
        "the Rust's total: expected {expected}, given {given}"
    ))
}

/// The address of an event that has this one in the Rust.
fn address(given: u32, log: &[Access]) -> Result<(u32, Option<Known>), String> {
    match seven_bit_header(log) {
        Some([code, oa1]) if given == oa1 => Ok((code, Some(Known::Address))),
        Some([_, oa1]) => Err(format!("the Rust's address: expected {oa1}, given {given}")),
        None => Ok((given, None)),
    }
}

/// ADDCODE and OA1 of an event whose ADDCODE is that of a ten-bit header while OA1MODE is 0.
fn seven_bit_header(log: &[Access]) -> Option<[u32; 2]> {
    let code = addcode_of(last_read(log, ISR)?);
    let own = last_read(log, OAR1)?;
    let left_aside = (0x78..=0x7B).contains(&code) && own & OA1MODE == 0;
    left_aside.then_some([code, own & OA1])
}

#[cfg(test)]
mod tests {
    use super::*;
    use crate::calls::build::{call, manual_write, BOARD, MANUAL, MANUAL_WRITE};
    use crate::calls::run::Run;
    use oracle::Panic;

    fn expected(word: &'static str, value: u32, known: Option<Known>) -> Result<End, String> {
        Ok(End { word, value, known })
    }

    /// How a call ends that met a NACK after so many bytes, of which the flush is none.
    fn nacked(
        call: u32,
        [length, put]: [usize; 2],
        given: Outcome,
        value: u32,
    ) -> Result<End, String> {
        let mut log = vec![[WRITTEN + TXDR, 0]; put];
        log.extend([[ISR, NACKF], [WRITTEN + ICR, NACKF]]);
        log.extend([[ISR, TXIS], [WRITTEN + TXDR, 0], [ISR, TXE]]);
        End::of(call, length, &given, value, &log)
    }

    fn done(call: u32, lengths: [usize; 2], value: u32) -> Result<End, String> {
        nacked(call, lengths, Outcome::Done, value)
    }

    fn panicked(call: u32, lengths: [usize; 2]) -> Result<End, String> {
        let panic = Panic {
            kind: PanicKind::NackAtOnce,
            message: String::new(),
        };
        nacked(call, lengths, Outcome::Panicked(panic), 0)
    }

    #[test]
    fn between_blocks_the_total_is_document_02s() {
        for call in MANUAL_WRITES {
            for length in [256, 257, 510] {
                let total = expected("done", 254, Some(Known::LastBlock));
                assert_eq!(done(call, [length, 255], 255), total);
            }
            for length in [511, 765] {
                let total = expected("done", 509, Some(Known::LastBlock));
                assert_eq!(done(call, [length, 510], 510), total);
            }
            let panics = |lengths, total, known| {
                assert_eq!(
                    panicked(call, lengths),
                    expected("done", total, Some(known))
                );
            };
            panics([511, 255], 254, Known::LaterBlock);
            panics([766, 255], 254, Known::LaterBlock);
            panics([766, 510], 509, Known::LaterBlock);
            panics([256, 0], 0, Known::FirstBlock);
            panics([766, 0], 0, Known::FirstBlock);
        }
    }

    /// There the Rust has to count all bytes put out, or to panic.
    #[test]
    fn between_blocks_another_total_of_the_rust_is_an_error() {
        for call in MANUAL_WRITES {
            for value in [0, 253, 254, 256, 510] {
                assert!(done(call, [256, 255], value).is_err());
                assert!(done(call, [510, 255], value).is_err());
            }
            for value in [0, 254, 255] {
                assert!(done(call, [511, 255], value).is_err());
                assert!(done(call, [256, 0], value).is_err());
            }
            assert!(panicked(call, [256, 255]).is_err());
            assert!(panicked(call, [511, 510]).is_err());
        }
    }

    /// At another byte, in a block 0 that is the last and after the last byte the Rust's total is
    /// document 02's.
    #[test]
    fn no_other_total_is_excused() {
        let others = [
            [1, 0],
            [255, 0],
            [256, 1],
            [256, 254],
            [256, 256],
            [511, 256],
        ];
        let ends = [
            [511, 509],
            [511, 511],
            [255, 255],
            [255, 256],
            [255, 257],
            [510, 510],
        ];
        for call in MANUAL_WRITES {
            for lengths in [others, ends].concat() {
                let [length, put]: [usize; 2] = lengths;
                let total = put.saturating_sub(1).min(length) as u32;
                let as_it_is = expected("done", total, None);
                assert_eq!(done(call, lengths, total), as_it_is, "{lengths:?}");
                for other in [total.wrapping_sub(1), total + 1] {
                    assert!(done(call, lengths, other).is_err(), "{lengths:?}");
                }
                assert!(panicked(call, lengths).is_err(), "{lengths:?}");
            }
            let bus = nacked(call, [256, 255], Outcome::Bus, 0);
            assert_eq!(bus, expected("bus", 0, None));
        }
    }

    /// An automatic write is one block, and what comes in is not put out.
    #[test]
    fn no_other_call_is_excused() {
        for call in [7, 9, 10, 11, 12, 25, 27] {
            for value in [0, 253, 254, 255, 256] {
                let as_it_is = expected("done", value, None);
                assert_eq!(done(call, [256, 255], value), as_it_is);
                assert_eq!(done(call, [511, 255], value), as_it_is);
            }
            assert!(panicked(call, [511, 255]).is_err());
            assert!(panicked(call, [256, 0]).is_err());
        }
    }

    /// Document 02's rule over the Rust's runs, for a NACK after every number of bytes.
    #[test]
    fn every_total_of_a_manual_write() {
        for length in [0_usize, 1, 254, 255, 256, 257, 510, 511, 765, 766] {
            for put in 0..=length + 3 {
                let total = put.saturating_sub(1).min(length) as u32;
                let known = match (put, length.saturating_sub(put)) {
                    (0, 256..) => Some(Known::FirstBlock),
                    (255 | 510, 256..) => Some(Known::LaterBlock),
                    (255 | 510 | 765, 1..=255) => Some(Known::LastBlock),
                    _ => None,
                };
                for number in MANUAL_WRITES {
                    let run = Run::of(&manual_write(number, length, put).nacks());
                    let given = (run.word, run.value, run.known);
                    assert_eq!(
                        given,
                        ("done", total, known),
                        "call {number}, {put} of {length}"
                    );
                }
            }
        }
    }

    /// The end of an event with these ISR and OAR1 words, after a poll.
    fn end(outcome: Outcome, value: u32, [status, own]: [u32; 2]) -> Result<End, String> {
        let log = [[ISR, TXE | addcode(0x30)], [ISR, status], [OAR1, own]];
        End::of(8, 0, &outcome, value, &log)
    }

    #[test]
    fn with_oa1mode_0_the_address_is_addcode() {
        let left_aside = |word, value| expected(word, value, Some(Known::Address));
        let written = |own, value| end(Outcome::EventWrite, value, [BOARD, own]);
        assert_eq!(written(0, 0), left_aside("event-write", 120));
        assert_eq!(written(0x80F0, 240), left_aside("event-write", 120));
        let read = [addcode(0x7B) | ADDR | DIR, !OA1MODE];
        let read = end(Outcome::EventRead, 0x3FF, read);
        assert_eq!(read, left_aside("event-read", 123));
    }

    /// There the Rust has to give OA1, even if that is not what the document has.
    #[test]
    fn another_address_of_the_rust_is_an_error() {
        for value in [0, 0x77, 0x78, 0xF1, 0x80F0] {
            assert!(end(Outcome::EventWrite, value, [BOARD, 0x80F0]).is_err());
        }
    }

    #[test]
    fn nothing_else_is_left_aside() {
        let beside = |code| addcode(code) | ADDR | TXE;
        let words = [
            [BOARD, OA1EN | OA1MODE | 0x123],
            [BOARD, OA1MODE | 0xF0],
            [beside(0x77), 0x80F0],
            [beside(0x7C), 0x80F0],
        ];
        for words in words {
            for value in [0, 0x77, 0x78, 0xF0, 0x123] {
                let given = end(Outcome::EventWrite, value, words);
                assert_eq!(given, expected("event-write", value, None), "{words:X?}");
            }
        }
        // No other outcome has an address.
        for outcome in [Outcome::Waiting, Outcome::Bus, Outcome::ExpectedRead] {
            let as_it_is = expected(outcome.word(), 0xF0, None);
            assert_eq!(end(outcome, 0xF0, [BOARD, 0x80F0]), as_it_is);
        }
    }

    /// Document 02's rule over the Rust's runs, for every ADDCODE.
    #[test]
    fn every_address_of_an_event() {
        for code in 0..128 {
            let is_header = code & 0x7C == 0x78;
            for own in [0, 0x80F0, 0x02A5, 0x04F0, 0x8523, !OA1MODE, u32::MAX] {
                let is_ten_bit = is_header && own & OA1MODE != 0;
                let address = if is_ten_bit { own & OA1 } else { code };
                let known = (is_header && !is_ten_bit).then_some(Known::Address);
                let own = if is_header { &[own][..] } else { &[] };
                for (number, direction) in [(8, 0), (8, DIR), (24, 0), (24, DIR)] {
                    let run = event(number, addcode(code) | direction, own);
                    let given = (run.value, run.known);
                    assert_eq!(given, (address, known), "{number}, {code:X}, {own:X?}");
                }
            }
        }
    }

    /// The run of an event that reads these words of OAR1.
    fn event(number: u32, status: u32, own: &[u32]) -> Run {
        let manual: &[u32] = match (number, status & DIR) {
            (8, _) => &[],
            (_, 0) => &MANUAL_WRITE,
            _ => &MANUAL,
        };
        let (before, after) = manual.split_at(manual.len().min(2));
        let case = call(number).answers(&[status | ADDR | TXE]);
        let run = Run::of(&case.answers(before).answers(own).answers(after));
        assert!(["event-read", "event-write"].contains(&run.word));
        run
    }
}
