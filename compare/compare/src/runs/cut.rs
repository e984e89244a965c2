//! A run cut at random, or where a later piece of an operation begins, where an event reads OAR1 and
//! around the NACK of a manual write: answers and log places in portions of any size, with refused
//! advances and questions for the next access in between. Document 01 says of each advance what it has
//! to give.

use oracle::Access;

use super::check::{self, same, Input, Lent};
use super::totals;
use super::truth::Uncut;
use super::wrong;
use crate::calls::build::READ;
use crate::calls::chip::{puts_out, OAR1, RXDR};
use crate::calls::known::MANUAL_WRITES;
use crate::calls::pieces;
use crate::random::Random;
use crate::rattle::{self, Advanced, ENTRY, FULL, WAITING};

/// How many advances a run is cut into, roughly, and how many refused ones stand among them, at most.
const ADVANCES: usize = 2_000;
const WRONG: u32 = 6;

/// Bytes that are no word, after the last answer.
const STRAY: [u8; 3] = [0x3F; 3];

/// Where an advance ended beside an entry that tells something.
#[derive(Clone, Copy, Debug, PartialEq, Eq, PartialOrd, Ord)]
pub enum Side {
    Before,
    After,
}

impl Side {
    pub const ALL: [Side; 2] = [Side::Before, Side::After];

    pub fn words(self) -> &'static str {
        match self {
            Side::Before => "before",
            Side::After => "after",
        }
    }
}

/// Cuts a run after each of these numbers of accesses, or as it comes. Gives where it was cut, of the
/// places that tell something.
pub fn check(
    lent: &mut Lent,
    input: Input,
    uncut: &Uncut,
    awaited: u32,
    ends: Option<&[usize]>,
    random: &mut Random,
) -> Result<Vec<Side>, String> {
    check::begin(lent, input, uncut, random.up_to(7) as usize)?;
    let answers = [rattle::bytes(input.answers), &STRAY].concat();
    lent.answers.hold(&answers, random.up_to(7) as usize);
    let mut cut = Cut::new(input, uncut, awaited);
    let ends = match ends {
        Some(ends) => ends.to_vec(),
        None if random.up_to(1) == 0 => cut.beside_borders(),
        None => Vec::new(),
    };
    let most = [uncut.used, uncut.log.len()].map(|all| portion(all, random));
    let mut wrongs = 0;
    for turn in 0.. {
        if random.up_to(3) == 0 {
            check::next(lent, input, uncut, cut.made, awaited)?;
        }
        if wrongs < WRONG && random.up_to(7) == 0 {
            wrongs += 1;
            wrong::check(lent, input, random)?;
        }
        let next = ends.partition_point(|&end| end <= cut.made);
        let [answers, places] = match ends.get(next) {
            Some(&end) => cut.up_to(end, random),
            None => most.map(|most| random.up_to(most) as usize),
        };
        let given = cut.advance(lent, answers, places, random)?;
        if turn % (1 + input.buffer.len() / 1_024) == 0 {
            check::buffer(&lent.buffer, &cut.model.buffer)?;
        }
        if cut.is_over(given) || uncut.is_refused() && turn == 2 {
            break;
        }
    }
    // One advance more finds that nothing is left to do, whatever it is lent.
    cut.advance(lent, random.up_to(3) as usize, 3, random)?;
    check::next(lent, input, uncut, cut.made, awaited)?;
    check::buffer(&lent.buffer, uncut.buffer)?;
    check::buffer(&lent.buffer, &cut.model.buffer)?;
    Ok(cut.sides)
}

/// The entries that begin a later piece of an operation, those that read OAR1, and those around the
/// NACK of a manual write, which comes after its event.
fn borders(input: Input, log: &[Access]) -> Vec<usize> {
    let own = (0..log.len()).filter(|&place| log[place][0] == OAR1);
    let nack = match MANUAL_WRITES.contains(&input.asked.call) {
        true => totals::around_nack(log),
        false => 0..0,
    };
    own.chain(pieces::later_controls(input.asked, log))
        .chain(nack)
        .collect()
}

/// The greatest portion of a cut, for a run that takes so many in all.
fn portion(all: usize, random: &mut Random) -> u32 {
    let least = all / ADVANCES;
    let portions = [1, 2, 3, 8, 40, 400, 4_000, all + 3];
    let large = portions.iter().position(|&it| it > least);
    random.pick(&portions[large.unwrap_or(portions.len() - 1)..]) as u32
}

/// A run between two of its advances.
struct Cut<'a> {
    input: Input<'a>,
    uncut: &'a Uncut<'a>,
    awaited: u32,
    model: Model<'a>,
    made: usize,
    used: usize,
    /// Bytes put out.
    put: usize,
    /// The entries that tell something, and where advances ended beside one.
    borders: Vec<usize>,
    sides: Vec<Side>,
}

impl<'a> Cut<'a> {
    fn new(input: Input<'a>, uncut: &'a Uncut<'a>, awaited: u32) -> Self {
        Cut {
            input,
            uncut,
            awaited,
            model: Model::new(input),
            made: 0,
            used: 0,
            put: 0,
            borders: borders(input, uncut.log),
            sides: Vec::new(),
        }
    }

    /// The places just before and just after an entry that tells something.
    fn beside_borders(&self) -> Vec<usize> {
        let borders = self.borders.iter();
        borders.flat_map(|&border| [border, border + 1]).collect()
    }

    /// Answers and places by which an advance comes to this place and no further: either of them ends
    /// there. After its last answer an advance goes on as far as it writes.
    fn up_to(&self, place: usize, random: &mut Random) -> [usize; 2] {
        let entries = &self.uncut.log[self.made..place];
        let reads = entries.iter().filter(|entry| entry[0] < 0x100).count();
        let writes_next = self.uncut.log.get(place).is_some_and(|it| it[0] >= 0x100);
        let more = random.up_to(2) as usize;
        match random.up_to(1) {
            1 if !writes_next => [reads, entries.len() + more],
            _ => [reads + more, entries.len()],
        }
    }

    /// One advance, with so many answers at most.
    fn advance(
        &mut self,
        lent: &mut Lent,
        answers: usize,
        places: usize,
        random: &mut Random,
    ) -> Result<Advanced, String> {
        let answers = answers.min(self.input.answers.len() - self.used);
        let expected = self.uncut.advance(self.made, self.awaited, answers, places);
        let from = 4 * self.used;
        let to = from + 4 * answers + random.up_to(3) as usize;
        let length = places * ENTRY + random.up_to(7) as usize;
        let given = rattle::advance(
            &self.input.description(),
            self.input.operations(),
            &mut lent.saved,
            lent.buffer.lent(),
            &lent.answers.content()[from..to],
            lent.log.lend(length, random.up_to(7) as usize),
        );
        same("an advance", expected, given)?;
        let made = self.made + given.written;
        let entries = &self.uncut.log[self.made..made];
        check::entries(&mut lent.log, entries)?;
        entries.iter().for_each(|&entry| self.model.make(entry));
        let puts = (self.made..made).filter(|&place| puts_out(self.uncut.log, place));
        self.put += puts.count();
        self.made = made;
        self.used += given.used;
        if self.borders.binary_search(&made).is_ok() {
            self.sides.push(Side::Before);
        }
        if made > 0 && self.borders.binary_search(&(made - 1)).is_ok() {
            self.sides.push(Side::After);
        }
        check::state(lent, self.input, self.uncut, self.made, || self.put)?;
        Ok(given)
    }

    fn is_over(&self, last: Advanced) -> bool {
        let all = self.made == self.uncut.log.len();
        last.report < WAITING || all && last.report == WAITING
    }
}

impl Uncut<'_> {
    /// What an advance gives after so many accesses, by document 01: the end, or `full` where the
    /// next access has no place, or `waiting` where it is a read without an answer.
    pub fn advance(&self, made: usize, awaited: u32, answers: usize, places: usize) -> Advanced {
        let mut given = Advanced {
            report: self.report,
            value: self.value,
            awaited: 0,
            used: 0,
            written: 0,
        };
        while !self.is_refused() {
            let next = self.log.get(made + given.written);
            if next.is_none() && self.has_ended() {
                break;
            }
            if given.written == places {
                (given.report, given.value) = (FULL, 0);
                break;
            }
            let code = next.map_or(awaited, |entry| entry[0]);
            if code < 0x100 {
                if given.used == answers {
                    (given.report, given.value, given.awaited) = (WAITING, 0, code);
                    break;
                }
                given.used += 1;
            }
            given.written += 1;
        }
        given
    }
}

/// The buffer after the accesses that were made: the read places take RXDR's words in order.
struct Model<'a> {
    operations: &'a [u32],
    buffer: Vec<u8>,
    /// The next read place, and how many there are from it to the end of its operation.
    place: usize,
    left: usize,
}

impl<'a> Model<'a> {
    fn new(input: Input<'a>) -> Self {
        let buffer = input.buffer.to_vec();
        let transacts = input.asked.call == 7;
        Model {
            operations: if transacts {
                &input.asked.operations
            } else {
                &[]
            },
            left: if transacts { 0 } else { buffer.len() },
            buffer,
            place: 0,
        }
    }

    fn make(&mut self, entry: Access) {
        if entry[0] != RXDR {
            return;
        }
        while let (0, [first, rest @ ..]) = (self.left, self.operations) {
            let length = (first & 0xFFFF) as usize;
            if first & READ != 0 {
                self.left = length;
            } else {
                self.place += length;
            }
            self.operations = rest;
        }
        if let Some(byte) = self.buffer.get_mut(self.place) {
            *byte = entry[1] as u8;
        }
        self.place += 1;
        self.left = self.left.saturating_sub(1);
    }
}

#[cfg(test)]
mod tests {
    use super::*;
    use crate::calls::build::{call, manual_write, transaction, BOARD};
    use crate::calls::case::Case;
    use crate::calls::chip::{DIR, NACKF, TXIS};
    use crate::calls::run::Run;
    use crate::runs::check::Checker;
    use std::collections::BTreeSet;

    fn uncut(log: &[Access], report: u32) -> Uncut<'_> {
        Uncut {
            report,
            value: 5,
            known: None,
            used: 2,
            log,
            buffer: &[],
        }
    }

    fn of(given: Advanced) -> (u32, u32, u32, usize, usize) {
        let Advanced {
            report,
            value,
            awaited,
            used,
            written,
        } = given;
        (report, value, awaited, used, written)
    }

    #[test]
    fn full_is_looked_at_before_waiting_and_the_end_before_both() {
        let log = [[0x104, 1], [0x18, 2], [0x04, 3], [0x128, 4]];
        let ended = uncut(&log, 0);
        assert_eq!(of(ended.advance(0, 0, 0, 0)), (FULL, 0, 0, 0, 0));
        assert_eq!(of(ended.advance(0, 0, 0, 1)), (FULL, 0, 0, 0, 1));
        assert_eq!(of(ended.advance(0, 0, 0, 2)), (WAITING, 0, 0x18, 0, 1));
        assert_eq!(of(ended.advance(1, 0, 1, 9)), (WAITING, 0, 0x04, 1, 1));
        assert_eq!(of(ended.advance(1, 0, 2, 3)), (0, 5, 0, 2, 3));
        assert_eq!(of(ended.advance(4, 0, 2, 0)), (0, 5, 0, 0, 0));
        let waits = uncut(&log, WAITING);
        assert_eq!(of(waits.advance(4, 0x24, 0, 0)), (FULL, 0, 0, 0, 0));
        assert_eq!(of(waits.advance(3, 0x24, 0, 2)), (WAITING, 0, 0x24, 0, 1));
    }

    #[test]
    fn bytes_go_to_the_read_places() {
        let case = transaction(&[1, READ | 1, READ, 2, READ | 2]).bytes(&[9; 6]);
        let mut model = Model::new((&case).into());
        for word in [0x101, 0x202, 0x303] {
            model.make([0x24, word]);
            model.make([0x18, 0xFF]);
        }
        assert_eq!(model.buffer, [9, 1, 9, 9, 2, 3]);
    }

    /// Whether answers or places are what ends there.
    #[test]
    fn an_advance_comes_to_a_place_and_no_further() {
        let case = manual_write(26, 256, 255).answers(&[NACKF, TXIS, 0]);
        let run = Run::of(&case);
        let uncut = uncut(&run.log, 0);
        let mut random = Random::new(1);
        let mut cut = Cut::new((&case).into(), &uncut, 0);
        for made in [0, 1, 300, 511, 515, 520] {
            cut.made = made;
            for place in made + 1..=run.log.len() {
                for _ in 0..10 {
                    let [answers, places] = cut.up_to(place, &mut random);
                    let given = uncut.advance(made, 0, answers, places);
                    assert_eq!(made + given.written, place);
                }
            }
        }
    }

    #[test]
    fn a_manual_write_is_cut_around_its_nack() {
        let borders = |case: &Case| borders(case.into(), &Run::of(case).log);
        let between = manual_write(26, 256, 255).nacks();
        assert_eq!(borders(&between), Vec::from_iter(511..519));
        let automatic = call(10).zeros(256).asks_for(255).nacks();
        assert_eq!(borders(&automatic), []);
    }

    #[test]
    fn an_event_is_cut_beside_its_read_of_oar1() {
        let manual = call(24).answers(&[BOARD | DIR, 0, 0, 0x80F0]);
        for case in [call(8).answers(&[BOARD, 0x80F0]), manual] {
            let sides = |seed| {
                let mut random = Random::new(seed);
                let ended = Checker::default().check((&case).into(), Some(&mut random));
                ended.unwrap().cuts
            };
            let sides: BTreeSet<Side> = (0..50).flat_map(sides).collect();
            assert!(sides.into_iter().eq(Side::ALL));
        }
    }
}
