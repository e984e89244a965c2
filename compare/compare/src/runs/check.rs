//! One input run by both, uncut and cut.

use std::fmt::Debug;

use oracle::{Access, Asked};

use super::cut::{self, Side};
use super::room::{Log, Room, BLANK};
use super::truth::{Truth, Uncut};
use crate::calls::case::Case;
use crate::calls::chip::put_out;
use crate::calls::known::{Known, MANUAL_WRITES};
use crate::calls::outside::{self, Row};
use crate::calls::pieces::has_long;
use crate::random::Random;
use crate::rattle::{self, saved, Advanced, Description, Next, ENTRY, SAVED, WAITING};

/// A call with all that is lent for it.
#[derive(Clone, Copy)]
pub struct Input<'a> {
    pub asked: &'a Asked,
    pub buffer: &'a [u8],
    pub answers: &'a [u32],
}

impl<'a> From<&'a Case> for Input<'a> {
    fn from(case: &'a Case) -> Self {
        Input {
            asked: &case.asked,
            buffer: &case.buffer,
            answers: &case.answers,
        }
    }
}

impl Input<'_> {
    pub fn description(&self) -> Description {
        self.asked.into()
    }

    pub fn operations(&self) -> &[u8] {
        rattle::bytes(&self.asked.operations)
    }

    pub fn case(&self) -> Case {
        Case {
            asked: self.asked.clone(),
            buffer: self.buffer.to_vec(),
            answers: self.answers.to_vec(),
        }
    }
}

/// Where an uncut run stands that both agree on.
pub struct Ended {
    pub report: u32,
    pub value: u32,
    /// The register that a waiting run waits for.
    pub awaited: u32,
    /// What the Rust does otherwise.
    pub known: Option<Known>,
    /// What the Rust does with a refused call, and with a list that is not cut.
    pub rows: Vec<Row>,
    /// Where it was cut, of the places that tell something.
    pub cuts: Vec<Side>,
    pub saved: [u8; SAVED],
}

/// What is lent to Rattle.
pub struct Lent {
    pub saved: [u8; SAVED],
    pub buffer: Room,
    pub answers: Room,
    pub log: Log,
}

impl Default for Lent {
    fn default() -> Self {
        Lent {
            saved: [BLANK; SAVED],
            buffer: Room::default(),
            answers: Room::default(),
            log: Log::default(),
        }
    }
}

#[derive(Default)]
pub struct Checker {
    truth: Truth,
    lent: Lent,
}

impl Checker {
    /// Runs an input uncut and, where there are numbers to cut it by, cut. What differs is told.
    pub fn check(&mut self, input: Input, cuts: Option<&mut Random>) -> Result<Ended, String> {
        self.check_ends(input, cuts, None)
    }

    /// Runs an input uncut, and cut after each of these numbers of accesses.
    pub fn check_at(
        &mut self,
        input: Input,
        ends: &[usize],
        random: &mut Random,
    ) -> Result<Ended, String> {
        self.check_ends(input, Some(random), Some(ends))
    }

    fn check_ends(
        &mut self,
        input: Input,
        cuts: Option<&mut Random>,
        ends: Option<&[usize]>,
    ) -> Result<Ended, String> {
        let uncut = self.truth.run(input.asked, input.buffer, input.answers)?;
        let mut ended = whole(&mut self.lent, input, &uncut)?;
        if let Some(random) = cuts {
            ended.cuts = cut::check(&mut self.lent, input, &uncut, ended.awaited, ends, random)?;
        }
        if uncut.is_refused() || has_long(input.asked) {
            ended.rows = outside::rows(&input.case())?;
        }
        Ok(ended)
    }

    /// The log and the buffer of the run that was checked last.
    pub fn last(&mut self) -> (&[Access], &[u8]) {
        self.truth.last()
    }
}

/// Begin and one advance, with a log that is long enough.
fn whole(lent: &mut Lent, input: Input, uncut: &Uncut) -> Result<Ended, String> {
    let shift = input.answers.len() % 8;
    begin(lent, input, uncut, shift)?;
    let places = uncut.log.len() + 2;
    let given = rattle::advance(
        &input.description(),
        input.operations(),
        &mut lent.saved,
        lent.buffer.lent(),
        rattle::bytes(input.answers),
        lent.log.lend(places * ENTRY + shift, shift),
    );
    let awaited = if uncut.report == WAITING {
        given.awaited
    } else {
        0
    };
    let expected = Advanced {
        report: uncut.report,
        value: uncut.value,
        awaited,
        used: uncut.used,
        written: uncut.log.len(),
    };
    same("the uncut advance", expected, given)?;
    entries(&mut lent.log, uncut.log)?;
    buffer(&lent.buffer, uncut.buffer)?;
    state(lent, input, uncut, uncut.log.len(), || put_out(uncut.log))?;
    next(lent, input, uncut, uncut.log.len(), awaited)?;
    Ok(Ended {
        report: uncut.report,
        value: uncut.value,
        awaited,
        known: uncut.known,
        rows: Vec::new(),
        cuts: Vec::new(),
        saved: lent.saved,
    })
}

/// Begins a call and lends its buffer anew.
pub fn begin(lent: &mut Lent, input: Input, uncut: &Uncut, shift: usize) -> Result<(), String> {
    lent.buffer.hold(input.buffer, shift);
    lent.saved = [BLANK; SAVED];
    let given = rattle::begin(
        &input.description(),
        input.operations(),
        lent.buffer.content(),
        &mut lent.saved,
    );
    let refusal = if uncut.is_refused() { uncut.value } else { 0 };
    same("begin", refusal, given)?;
    buffer(&lent.buffer, input.buffer)?;
    state(lent, input, uncut, 0, || 0)
}

/// The saved call after so many accesses, of which so many put a byte out, as far as it is known: all
/// of a refused one.
pub fn state(
    lent: &Lent,
    input: Input,
    uncut: &Uncut,
    made: usize,
    put: impl FnOnce() -> usize,
) -> Result<(), String> {
    if uncut.is_refused() {
        return same("the refused saved call", [0; SAVED], lent.saved);
    }
    let call = rattle::word(&lent.saved, saved::CALL);
    same("the saved call's number", input.asked.call, call)?;
    let accesses = rattle::word(&lent.saved, saved::ACCESSES);
    same("the saved call's accesses", made as u32, accesses)?;
    // Only a manual write counts the bytes that it puts out (document 02, R-6).
    let counted = match MANUAL_WRITES.contains(&input.asked.call) {
        true => put().min(input.buffer.len() + 1),
        false => 0,
    };
    let out = rattle::word(&lent.saved, saved::OUT);
    same("the saved call's bytes put out", counted as u32, out)
}

/// The next access after so many.
pub fn next(
    lent: &Lent,
    input: Input,
    uncut: &Uncut,
    made: usize,
    awaited: u32,
) -> Result<(), String> {
    let given = rattle::next(
        &input.description(),
        input.operations(),
        &lent.saved,
        lent.buffer.content(),
    );
    same("the next access", uncut.next(made, awaited), given)
}

/// The entries just written are these and nothing else was.
pub fn entries(log: &mut Log, expected: &[Access]) -> Result<(), String> {
    let length = expected.len() * ENTRY;
    let given = log
        .written(length)
        .ok_or("a byte beside the log's entries was written")?;
    if given != rattle::bytes(expected.as_flattened()) {
        let place = given
            .chunks(ENTRY)
            .zip(expected)
            .position(|(given, entry)| given != rattle::bytes(entry));
        return Err(format!("entry {} of the log differs", place.unwrap_or(0)));
    }
    log.clear(length);
    Ok(())
}

pub fn buffer(room: &Room, expected: &[u8]) -> Result<(), String> {
    if room.content() != expected {
        return Err("the buffer differs".to_string());
    }
    if !room.margins_are_blank() {
        return Err("a byte beside the buffer was written".to_string());
    }
    Ok(())
}

pub fn same<T: PartialEq + Debug>(what: &str, expected: T, given: T) -> Result<(), String> {
    if expected == given {
        return Ok(());
    }
    Err(format!("{what}: expected {expected:?}, given {given:?}"))
}

impl Uncut<'_> {
    /// What is next after so many accesses. The register that the run waits for at its end, if it
    /// does, the Rust does not tell.
    fn next(&self, made: usize, awaited: u32) -> Next {
        let (kind, value) = match self.log.get(made) {
            _ if self.is_refused() => (rattle::NONE_REFUSED, self.value),
            Some(&[code, _]) if code >= 0x100 => (rattle::WRITE, code - 0x100),
            Some(&[code, _]) => (rattle::READ, code),
            None if self.has_ended() => (rattle::OVER, 0),
            None => (rattle::READ, awaited),
        };
        Next { kind, value }
    }
}

#[cfg(test)]
mod tests {
    use super::*;
    use crate::calls::build::{call, manual_write, BOARD, MATCH};
    use crate::calls::chip::{addcode, ADDR, DIR, TXE};

    type Change = fn(&mut Uncut);

    /// Whether the Rattle's run of a call differs from what is expected, that being changed.
    fn differs(case: &Case, change: Change) -> bool {
        let mut truth = Truth::default();
        let input = Input::from(case);
        let mut uncut = truth.run(input.asked, input.buffer, input.answers).unwrap();
        change(&mut uncut);
        whole(&mut Lent::default(), input, &uncut).is_err()
    }

    /// With OA1MODE 0 the address is document 02's alone; all else is the Rust's.
    #[test]
    fn nothing_but_the_address_is_left_aside() {
        let others: [Change; 6] = [
            |uncut| uncut.value += 1,
            |uncut| uncut.report = 15 - uncut.report,
            |uncut| uncut.used -= 1,
            |uncut| uncut.log = &uncut.log[1..],
            |uncut| uncut.log = &[[0x18, 0x00F0_0009], [0x11C, 8], [0x0C, 0x80F0]],
            |uncut| uncut.buffer = &[0x5B],
        ];
        let board = call(8).bytes(&[0x5A]).answers(&[BOARD, 0x80F0]);
        let manual = call(24).answers(&[BOARD | DIR, 0, 0, 0x80F0]);
        let ten_bit = call(8).answers(&[BOARD, 0x8523]);
        let beside = |code| call(8).answers(&[addcode(code) | ADDR | TXE]);
        for case in [&board, &manual, &ten_bit, &beside(0x77), &beside(0x7C)] {
            assert!(!differs(case, |_| {}));
            for other in others {
                assert!(differs(case, other), "{}", case.text(""));
            }
        }
        assert!(differs(&board, |uncut| uncut.value = 0xF0));
        assert!(differs(&ten_bit, |uncut| uncut.value = 0x78));
    }

    /// At a NACK at byte 0 of a later block the total is document 02's alone; all else is the Rust's.
    #[test]
    fn nothing_but_the_total_is_excused() {
        let others: [Change; 7] = [
            |uncut| uncut.value += 1,
            |uncut| uncut.value = uncut.value.wrapping_sub(1),
            |uncut| uncut.report = 1,
            |uncut| uncut.used -= 1,
            |uncut| uncut.log = &uncut.log[1..],
            |uncut| uncut.log = &uncut.log[..uncut.log.len() - 1],
            |uncut| uncut.buffer = &uncut.buffer[1..],
        ];
        let between = [[256, 255], [510, 255], [511, 255], [511, 510], [256, 0]];
        let beside = [
            [256, 254],
            [256, 256],
            [511, 256],
            [255, 0],
            [255, 255],
            [255, 257],
        ];
        for number in MANUAL_WRITES {
            for [length, bytes] in [&between[..], &beside].concat() {
                let case = manual_write(number, length, bytes).nacks();
                assert!(!differs(&case, |_| {}));
                for other in others {
                    assert!(differs(&case, other), "call {number}, {bytes} of {length}");
                }
            }
            // Neither the Rust's total there nor one less elsewhere.
            let last = manual_write(number, 256, 255).nacks();
            assert!(differs(&last, |uncut| uncut.value = 255));
            let next = manual_write(number, 256, 256).nacks();
            assert!(differs(&next, |uncut| uncut.value = 254));
        }
        for number in [10, 12] {
            let event: &[u32] = if number == 12 { &[MATCH | DIR] } else { &[] };
            let case = call(number).zeros(256).answers(event).asks_for(255).nacks();
            assert!(!differs(&case, |uncut| assert_eq!(uncut.value, 254)));
            assert!(differs(&case, |uncut| uncut.value = 253));
        }
    }

    /// The saved call of a manual write has the bytes put out, and that of no other call.
    #[test]
    fn bytes_put_out_are_carried() {
        let carried = |case: &Case| {
            let saved = Checker::default().check(case.into(), None).unwrap().saved;
            rattle::word(&saved, saved::OUT)
        };
        assert_eq!(carried(&manual_write(26, 256, 255)), 255);
        assert_eq!(carried(&manual_write(28, 256, 255).nacks()), 255);
        assert_eq!(carried(&manual_write(26, 2, 3)), 3);
        assert_eq!(carried(&manual_write(26, 2, 9).nacks()), 3);
        assert_eq!(carried(&call(10).zeros(2).asks_for(2).nacks()), 0);
        let mut lent = Lent::default();
        let case = manual_write(26, 2, 2);
        let mut truth = Truth::default();
        let uncut = truth.run(&case.asked, &case.buffer, &case.answers).unwrap();
        assert!(whole(&mut lent, (&case).into(), &uncut).is_ok());
        let made = uncut.log.len();
        let told = |put| state(&lent, (&case).into(), &uncut, made, || put).is_err();
        assert_eq!([1, 2, 3].map(told), [true, false, true]);
    }
}
