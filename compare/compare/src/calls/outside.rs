//! What the Rust does with calls that document 01 refuses, and with lists that are not cut: rows of
//! docs/DIFFERENCES.md.
//!
//! The Rust has no such refusals. Its run of a refused call is held to its run of an accepted one
//! nearby, with the words that the row alters, and as far as the row goes. So a row excuses its own
//! cases alone, and what no row tells is an error.

use std::borrow::Cow;

use oracle::{cut, Access, Asked, Description, Outcome, PanicKind};

use super::build::{call, transaction};
use super::case::Case;
use super::chip::*;
use super::pieces::{self, has_long, is_control, is_long};

/// The most bytes that are lent, and the most operations.
const BYTES: usize = 65_535;
const OPERATIONS: usize = 64;

#[derive(Clone, Copy, Debug, PartialEq, Eq, PartialOrd, Ord)]
pub enum Row {
    NotExpressed,
    SevenBitAddress,
    TenBitAddress,
    OwnSevenBit,
    OwnTenBit,
    Secondary,
    Mask,
    Mask255,
    MaskAlone,
    ManyOperations,
    LongOperation,
    LongList,
    EmptyBuffer,
    LongBuffer,
    BufferAside,
}

impl Row {
    pub const ALL: [Row; 15] = [
        Row::NotExpressed,
        Row::SevenBitAddress,
        Row::TenBitAddress,
        Row::OwnSevenBit,
        Row::OwnTenBit,
        Row::Secondary,
        Row::Mask,
        Row::Mask255,
        Row::MaskAlone,
        Row::ManyOperations,
        Row::LongOperation,
        Row::LongList,
        Row::EmptyBuffer,
        Row::LongBuffer,
        Row::BufferAside,
    ];

    /// What the Rust does.
    pub fn words(self) -> &'static str {
        match self {
            Row::NotExpressed => "it has no such number, or no such slices",
            Row::SevenBitAddress => "SADD has the eight bits of a seven-bit address, shifted",
            Row::TenBitAddress => "SADD has the low ten bits of a ten-bit address",
            Row::OwnSevenBit => "OA1 has the low nine bits of a seven-bit own address, shifted",
            Row::OwnTenBit => "OA1 has the low ten bits of a ten-bit own address",
            Row::Secondary => "OA2 has the low seven bits of a secondary address",
            Row::Mask => "OA2MSK has the low three bits of the mask plus 1",
            Row::Mask255 => "it panics at a mask of 255",
            Row::MaskAlone => "no mask is looked at without a secondary address",
            Row::ManyOperations => "it goes on after 64 operations",
            Row::LongOperation => "it panics at an operation over 255 bytes that is not cut",
            Row::LongList => "it goes on after 65,535 bytes of a list that is cut",
            Row::EmptyBuffer => "it panics at an empty buffer",
            Row::LongBuffer => "it goes on after 65,535 bytes",
            Row::BufferAside => "no buffer is looked at",
        }
    }

    /// A small call that shows it.
    pub fn example(self) -> Case {
        let sends = transaction(&[1])
            .bytes(&[0x12])
            .answers(&[TXE, 0, TXIS, STOPF]);
        match self {
            Row::NotExpressed => call(0),
            Row::SevenBitAddress => sends.asking(|asked| asked.address = 0x80),
            Row::TenBitAddress => sends.ten_bit(0x400),
            Row::OwnSevenBit => call(3).owning(0x80, None, None),
            Row::OwnTenBit => call(3).owning_ten_bit(0x400, None),
            Row::Secondary => call(3).owning(0x42, Some(0x80), None),
            Row::Mask => call(3).owning(0x42, Some(0x21), Some(7)),
            Row::Mask255 => call(3).owning(0x42, Some(0x21), Some(255)),
            Row::MaskAlone => call(3).owning(0x42, None, Some(7)),
            Row::ManyOperations => {
                let turns = [TXE, 0, TCR].repeat(OPERATIONS);
                let last = [TXE, 0, STOPF];
                transaction(&[0; OPERATIONS + 1])
                    .answers(&turns)
                    .answers(&last)
            }
            Row::LongOperation => transaction(&[256]).zeros(256),
            Row::LongList => transaction(&[32_768; 2]).zeros(BYTES + 1).goes_through(),
            Row::EmptyBuffer => call(9),
            Row::LongBuffer => call(9)
                .zeros(BYTES + 1)
                .receives(BYTES as u32 + 1)
                .answers(&[0]),
            Row::BufferAside => call(14).zeros(BYTES + 1).answers(&[0]),
        }
    }
}

/// The rows that tell what the Rust does with a call otherwise than document 01 and 02 have it; or
/// what none of them tells.
pub fn rows(case: &Case) -> Result<Vec<Row>, String> {
    let refused = case.asked.refusal(case.buffer.len()).is_some();
    let mut rows = Vec::new();
    if refused {
        refused_rows(case, &mut rows)?;
    }
    if has_long(&case.asked) {
        uncut_rows(case, &mut rows)?;
    }
    rows.sort();
    rows.dedup();
    Ok(rows)
}

fn refused_rows(case: &Case, rows: &mut Vec<Row>) -> Result<(), String> {
    let Some(given) = RustRun::of(case) else {
        rows.push(Row::NotExpressed);
        return Ok(());
    };
    let expected = match (case.asked.call, case.buffer.len()) {
        (7, _) => transaction_run(case, rows),
        (9..=12, 0) => empty_run(case, rows),
        (9..=12 | 25..=28, _) => long_run(case, rows),
        _ => run_aside(case, rows),
    };
    expected.same(&given)
}

/// Given a list that is not cut, the Rust panics where it comes to an operation that takes more
/// than a piece. Up to there it does what it does with the list already cut.
fn uncut_rows(case: &Case, rows: &mut Vec<Row>) -> Result<(), String> {
    let Some(description) = case.asked.description(case.buffer.len()) else {
        return Ok(());
    };
    let operations = &case.asked.operations;
    let uncut = Description {
        operations: Cow::Borrowed(operations),
        ..description.clone()
    };
    let given = RustRun::of_described(&uncut, &case.buffer, &case.answers);
    let left = given.answers_left(given.log.len(), case).len();
    let used = &case.answers[..case.answers.len() - left];
    let mut expected = RustRun::of_described(&description, &case.buffer, used);
    let long = operations.iter().position(|&it| is_long(it));
    let before = &operations[..long.unwrap_or(operations.len())];
    if let Some(place) = expected.control(cut(before).len()) {
        rows.push(Row::LongOperation);
        expected.cut(place, End::Panics(PanicKind::Long));
        let bytes = pieces::sum(before);
        expected.buffer[bytes..].copy_from_slice(&case.buffer[bytes..]);
    }
    expected.same(&given)
}

/// What the Rust does, or is expected to do.
struct RustRun {
    log: Vec<Access>,
    buffer: Vec<u8>,
    end: End,
}

#[derive(Debug, PartialEq)]
enum End {
    Outcome(Outcome, u32),
    Panics(PanicKind),
}

impl RustRun {
    /// None where the driver's types cannot express the call.
    fn of(case: &Case) -> Option<RustRun> {
        let description = case.asked.description(case.buffer.len())?;
        let Case {
            buffer, answers, ..
        } = case;
        Some(RustRun::of_described(&description, buffer, answers))
    }

    fn of_described(description: &Description, buffer: &[u8], answers: &[u32]) -> RustRun {
        let mut buffer = buffer.to_vec();
        let run = oracle::run(description, &mut buffer, answers);
        let end = match run.outcome {
            // In the accepted call nearby this block may be the last, where all bytes before count.
            Outcome::Panicked(panic) if panic.kind == PanicKind::NackAtOnce => {
                End::Outcome(Outcome::Done, put_out(&run.log) as u32)
            }
            Outcome::Panicked(panic) => End::Panics(panic.kind),
            outcome => End::Outcome(outcome, run.value),
        };
        RustRun {
            log: run.log,
            buffer,
            end,
        }
    }

    fn of_accepted(case: &Case) -> RustRun {
        debug_assert_eq!(case.asked.refusal(case.buffer.len()), None);
        RustRun::of(case).expect("the driver can express what is accepted")
    }

    /// Ends before the entry at this place.
    fn cut(&mut self, place: usize, end: End) {
        self.log.truncate(place);
        self.end = end;
    }

    /// The place of the CR2 word that a piece of a transaction begins with, by its number.
    fn control(&self, piece: usize) -> Option<usize> {
        let is_control = |place: &usize| is_control(&self.log[*place]);
        (0..self.log.len()).filter(is_control).nth(piece)
    }

    /// The place where so many bytes were moved, a flush apart.
    fn moved(&self, bytes: usize) -> Option<usize> {
        let log = self.log.iter();
        let before_flush = log.take_while(|&&it| it != [WRITTEN + ICR, NACKF]).count();
        let moves = |&it: &usize| [RXDR, WRITTEN + TXDR].contains(&self.log[it][0]);
        (0..before_flush).filter(moves).nth(bytes - 1)
    }

    /// The call's answers that are left before the entry at this place.
    fn answers_left(&self, place: usize, case: &Case) -> Vec<u32> {
        let reads = self.log[..place].iter().filter(|entry| entry[0] < WRITTEN);
        case.answers[reads.count()..].to_vec()
    }

    fn same(&self, given: &RustRun) -> Result<(), String> {
        let told = |what| Err(format!("what the Rust does with a refused call: {what}"));
        if self.log != given.log {
            let both = self.log.iter().zip(&given.log);
            let place = both.take_while(|(a, b)| a == b).count();
            let at = |run: &RustRun| run.log.get(place).copied();
            return told(format!(
                "entry {place} of the log: expected {:X?}, given {:X?}",
                at(self),
                at(given)
            ));
        }
        if self.end != given.end {
            return told(format!("expected {:?}, given {:?}", self.end, given.end));
        }
        if self.buffer != given.buffer {
            return told("the buffer differs".to_string());
        }
        Ok(())
    }
}

/// Call 7: wide addresses are cut, and there may be any number of operations and of bytes.
fn transaction_run(case: &Case, rows: &mut Vec<Row>) -> RustRun {
    let Asked {
        address,
        ten_bit,
        ref operations,
        ..
    } = case.asked;
    let most = if ten_bit { 0x3FF } else { 0x7F };
    let mut near = case.clone();
    near.asked.address &= most;
    near.asked.operations = cut(operations).into_owned();
    let mut expected = pieces_run(&near);
    if address > most && ten_bit {
        rows.push(Row::TenBitAddress);
    } else if address > most {
        rows.push(Row::SevenBitAddress);
        let starts = |entry: &&mut Access| is_control(entry) && entry[1] & START != 0;
        let starts = expected.log.iter_mut().filter(starts);
        starts.for_each(|entry| entry[1] |= 0x100);
    }
    // An accepted list ends with the last piece of its 64th operation, and with byte 65,535.
    let last = operations.get(..OPERATIONS).map_or(0, |it| cut(it).len());
    if operations.len() > OPERATIONS && expected.control(last - 1).is_some() {
        rows.push(Row::ManyOperations);
    }
    if expected.moved(BYTES + 1).is_some() {
        rows.push(Row::LongList);
    }
    expected
}

/// The run of a list that is cut, of any length. Its first 64 pieces make a list that is accepted,
/// and so do those from the 64th on, as far as there are 64: only the CR2 word of the 64th has the
/// ending of the one and the rest of the other.
fn pieces_run(case: &Case) -> RustRun {
    let list = &case.asked.operations;
    let part = |list: &[u32], from: usize, answers: Vec<u32>| Case {
        asked: Asked {
            operations: list.to_vec(),
            ..case.asked.clone()
        },
        buffer: case.buffer[from..from + pieces::sum(list)].to_vec(),
        answers,
    };
    let Some(first) = list.get(..OPERATIONS).filter(|it| it.len() < list.len()) else {
        return RustRun::of_accepted(case);
    };
    let mut expected = RustRun::of_accepted(&part(first, 0, case.answers.clone()));
    let parted = OPERATIONS - 1;
    let bytes = pieces::sum(&list[..parted]);
    expected.buffer.truncate(bytes);
    let Some(place) = expected.control(parted) else {
        expected.buffer.extend(&case.buffer[bytes..]);
        return expected;
    };
    let answers = expected.answers_left(place, case);
    let rest = pieces_run(&part(&list[parted..], bytes, answers));
    let ending = rest.log[0][1] & (AUTOEND | RELOAD);
    expected.log[place][1] = expected.log[place][1] & !(AUTOEND | RELOAD) | ending;
    expected.log.truncate(place + 1);
    expected.log.extend(&rest.log[1..]);
    expected.buffer.extend(rest.buffer);
    expected.end = rest.end;
    expected
}

/// An AutoAck transfer without a byte panics after its event, if there is to be one.
fn empty_run(case: &Case, rows: &mut Vec<Row>) -> RustRun {
    let event = case.clone().asking(|asked| asked.call = 8);
    let mut expected = RustRun::of_accepted(&event);
    let panics = End::Panics(PanicKind::Empty);
    let other = |outcome| End::Outcome(outcome, 0);
    match (case.asked.call, &expected.end) {
        (9 | 10, _) => expected.cut(0, panics),
        (11, End::Outcome(Outcome::EventWrite, _)) => expected.end = panics,
        (12, End::Outcome(Outcome::EventRead, _)) => expected.end = panics,
        (_, End::Outcome(Outcome::EventRead, _)) => expected.end = other(Outcome::ExpectedWrite),
        (_, End::Outcome(Outcome::EventWrite, _)) => expected.end = other(Outcome::ExpectedRead),
        (_, End::Outcome(Outcome::EventStop, _)) => expected.end = other(Outcome::Stopped),
        _ => {}
    }
    if matches!(expected.end, End::Panics(_)) {
        rows.push(Row::EmptyBuffer);
    }
    expected
}

/// A transfer of more bytes than may be lent goes as one of the most bytes does, and then as one of
/// the rest.
fn long_run(case: &Case, rows: &mut Vec<Row>) -> RustRun {
    let (first, rest) = case.buffer.split_at(BYTES);
    let mut expected = RustRun::of_accepted(&case.clone().bytes(first));
    let Some(last) = expected.moved(BYTES) else {
        expected.buffer.extend(rest);
        return expected;
    };
    rows.push(Row::LongBuffer);
    let call = match case.asked.call {
        call @ (11 | 12 | 27 | 28) => call - 2,
        call => call,
    };
    let rest = RustRun::of_accepted(&Case {
        asked: Asked {
            call,
            ..case.asked.clone()
        },
        buffer: rest.to_vec(),
        answers: expected.answers_left(last + 1, case),
    });
    expected.cut(last + 1, rest.end);
    if let End::Outcome(Outcome::Done, count) = &mut expected.end {
        *count += BYTES as u32;
        // The byte before a NACK is not counted, and here it is one of the first.
        let nack = rest.log.iter().find(|entry| entry[0] >= WRITTEN);
        if call == 10 && nack == Some(&[WRITTEN + ICR, NACKF]) {
            *count -= 1;
        }
    }
    let mut log = rest.log;
    if call >= 24 && log.len() > 2 {
        log.remove(2); // ADDRCF is cleared before the first block alone.
    }
    expected.log.extend(log);
    expected.buffer.extend(rest.buffer);
    expected
}

/// Other calls have no use for a buffer; the words of a configuration are cut to their fields.
fn run_aside(case: &Case, rows: &mut Vec<Row>) -> RustRun {
    let mut near = case.clone();
    if case.buffer.len() > BYTES {
        rows.push(Row::BufferAside);
        near.buffer.clear();
    }
    let mut expected = match case.asked.call {
        1..=3 => configured_run(near, rows),
        _ => RustRun::of_accepted(&near),
    };
    expected.buffer = case.buffer.clone();
    expected
}

fn configured_run(mut near: Case, rows: &mut Vec<Row>) -> RustRun {
    let asked = &mut near.asked;
    let own = asked.own_address;
    if asked.own_ten_bit && own > 0x3FF {
        rows.push(Row::OwnTenBit);
        asked.own_address &= 0x3FF;
    } else if !asked.own_ten_bit && own > 0x7F {
        rows.push(Row::OwnSevenBit);
        asked.own_address &= 0x7F;
    }
    if let Some(secondary @ 0x80..) = asked.secondary_address {
        rows.push(Row::Secondary);
        asked.secondary_address = Some(secondary & 0x7F);
    }
    let mut panics = false;
    if let Some(mask @ 7..) = asked.mask {
        panics = mask == 255 && asked.secondary_address.is_some();
        rows.push(match asked.secondary_address {
            None => Row::MaskAlone,
            Some(_) if panics => Row::Mask255,
            Some(_) => Row::Mask,
        });
        asked.mask = Some(mask & 7).filter(|&it| it < 7);
    }
    let above = if asked.own_ten_bit { 0 } else { 0x300 };
    let mut expected = RustRun::of_accepted(&near);
    let place = |register| {
        let written = |entry: &Access| entry[0] == WRITTEN + register;
        expected.log.iter().position(written)
    };
    let (primary, secondary) = (place(OAR1), place(OAR2));
    if let Some(place) = primary {
        expected.log[place][1] |= own << 1 & above;
    }
    if let (true, Some(place)) = (panics, secondary) {
        expected.cut(place, End::Panics(PanicKind::Mask));
    }
    expected
}

#[cfg(test)]
mod tests {
    use super::*;
    use crate::calls::answers::{Answers, Stretch};
    use crate::calls::build::{counted, READ};
    use crate::calls::generate;
    use crate::random::Random;

    #[test]
    fn each_row_has_an_example() {
        for row in Row::ALL {
            let case = row.example();
            let refused = case.asked.refusal(case.buffer.len()).is_some();
            assert_eq!(refused, row != Row::LongOperation, "{row:?}");
            let mut rows = rows(&case).unwrap();
            // A list of so many bytes has an operation that takes more than a piece.
            rows.retain(|&it| it == row || row != Row::LongList || it != Row::LongOperation);
            assert_eq!(rows, [row]);
        }
    }

    #[test]
    fn every_call_is_told() {
        let mut random = Random::new(3);
        for _ in 0..5_000 {
            let case = generate::case(&mut random);
            assert!(rows(&case).is_ok(), "{}", case.text(""));
        }
    }

    #[test]
    fn nothing_else_is_excused() {
        let case = Row::SevenBitAddress.example();
        let expected = transaction_run(&case, &mut Vec::new());
        let differs = |change: fn(&mut RustRun)| {
            let mut given = RustRun::of(&case).unwrap();
            change(&mut given);
            expected.same(&given).is_err()
        };
        assert!(!differs(|_| {}));
        assert!(differs(|given| given.log[0][1] ^= 0x100));
        assert!(differs(|given| given.log.truncate(3)));
        assert!(differs(|given| given.log.push([0, 0])));
        assert!(differs(|given| given.buffer[0] = 0));
        assert!(differs(|given| given.end = End::Outcome(Outcome::Done, 1)));
        assert!(differs(|given| given.end = End::Panics(PanicKind::Long)));
    }

    #[test]
    fn a_row_is_told_once_a_run_comes_to_it() {
        let with = |row: Row, answers| {
            let mut case = row.example();
            case.answers.truncate(answers);
            rows(&case)
        };
        let many = Row::ManyOperations;
        assert_eq!(with(many, 3 * 63 - 1), Ok(vec![]));
        assert_eq!(with(many, 3 * 63), Ok(vec![many]));
        let long = Row::LongBuffer;
        assert_eq!(with(long, 2 * BYTES - 1), Ok(vec![]));
        assert_eq!(with(long, 2 * BYTES), Ok(vec![long]));
        let list = Row::LongList;
        let answers = list.example().answers.len();
        assert_eq!(with(list, answers - 2), Ok(vec![Row::LongOperation]));
        assert_eq!(with(list, answers - 1), Ok(vec![Row::LongOperation, list]));
        let mut case = transaction(&[0, 256]).zeros(256).answers(&[TXE, 0]);
        assert_eq!(rows(&case), Ok(vec![]));
        case.answers.push(TCR);
        assert_eq!(rows(&case), Ok(vec![Row::LongOperation]));
    }

    #[test]
    fn rows_come_together() {
        let mut operations = [READ; OPERATIONS + 3];
        operations[OPERATIONS + 2] = 256;
        let answers = [TXE, 0, TCR].repeat(OPERATIONS + 1);
        let case = transaction(&operations).zeros(256).answers(&answers);
        let case = case.asking(|asked| asked.address = 0xFF);
        assert_eq!(
            rows(&case.clone().answers(&[TXE, 0])),
            Ok(vec![Row::SevenBitAddress, Row::ManyOperations])
        );
        assert_eq!(
            rows(&case.answers(&[TXE, 0, TC])),
            Ok(vec![
                Row::SevenBitAddress,
                Row::ManyOperations,
                Row::LongOperation
            ])
        );
    }

    #[test]
    fn long_lists_are_told_wherever_they_end() {
        let mut random = Random::new(1);
        let lists: [&[u32]; 5] = [
            &[65_535, 1],
            &[READ | 65_535, READ | 65_535],
            &[1, READ | 65_535, 300],
            &[1_021; 65],
            &[300; 67],
        ];
        for list in lists {
            let length = pieces::sum(list);
            for word in [0, BERR, NACKF, STOPF] {
                let mut case = transaction(list).bytes(&counted(length));
                let stretch = Stretch {
                    after: random.up_to(2 * length as u32),
                    word,
                    polls: 2,
                };
                let choices = Answers::to_the_end(7, length, random.split());
                case.answers = generate::chosen(&case, choices.stretched(stretch));
                assert!(rows(&case).is_ok(), "{list:?} and {word:X}");
            }
        }
    }

    #[test]
    fn long_buffers_in_every_transfer() {
        let mut random = Random::new(1);
        for number in [9, 10, 11, 12, 25, 26, 27, 28] {
            for length in [BYTES + 1, BYTES + 300] {
                for moved in [BYTES - 1, BYTES, BYTES + 256] {
                    let mut case = call(number).bytes(&counted(length));
                    let choices = Answers::to_the_end(number, length, random.split());
                    case.answers = generate::chosen(&case, choices.moving(moved));
                    let expected = if moved < BYTES {
                        vec![]
                    } else {
                        vec![Row::LongBuffer]
                    };
                    assert_eq!(
                        rows(&case),
                        Ok(expected),
                        "call {number}, {length}, {moved}"
                    );
                }
            }
        }
    }
}
