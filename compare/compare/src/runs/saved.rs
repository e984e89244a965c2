//! Row 13 by pieces: saved calls of a transaction at every piece and at the byte numbers that tell
//! something, right and wrong, and what the next access of each is. The Rust's run says which words
//! the pieces have.

use std::ops::RangeInclusive;

use super::check::{same, Input};
use super::kinds::{Kind, Kinds, Saved};
use super::progress::Stop;
use super::words;
use super::Comparison;
use crate::calls::build::{transaction, READ};
use crate::calls::case::Case;
use crate::calls::chip::*;
use crate::calls::pieces::{self, Piece};
use crate::calls::run::Run;
use crate::rattle::{
    self, saved, Advanced, Description, Next, ENTRY, FULL, NONE_REFUSED, REFUSED, SAVED, WAITING,
};

/// Where a piece can stand: before its CR2 word, in the two halves of the start wait, at its wait
/// for a byte or for its end, and at the byte.
#[derive(Clone, Copy, Debug, PartialEq, Eq)]
enum Stand {
    Begin,
    StartStatus,
    StartControl,
    Wait,
    Byte,
}

/// Each with the accesses that a write of one byte makes before it stands so.
const STANDS: [Stand; 5] = [
    Stand::Begin,
    Stand::StartStatus,
    Stand::StartControl,
    Stand::Wait,
    Stand::Byte,
];

/// Goes through all of them.
pub fn all(comparison: &mut Comparison) -> Result<(), Stop> {
    comparison.progress.part = "saved calls at every piece".to_string();
    let mut tried = 0;
    let lists = lists();
    for list in &lists {
        let case = words::operations(list).goes_through();
        let each = Pieces::of(&case);
        tried += each
            .check(&mut comparison.kinds)
            .map_err(|told| Stop::difference(Input::from(&case), told))?;
    }
    println!(
        "runs: {tried} saved calls at every piece of {} lists",
        lists.len()
    );
    Ok(())
}

/// Few pieces and the most that there are, the empty ones before, after and among the others.
fn lists() -> Vec<Vec<u32>> {
    let mut lists: Vec<Vec<u32>> = [
        &[1][..],
        &[256],
        &[READ | 510],
        &[3, READ | 300, 0, 700, READ, READ | 255, READ | 256],
        &[65_535],
        &[READ | 65_535],
        &[32_767, READ | 32_768],
    ]
    .map(<[u32]>::to_vec)
    .into();
    for place in [0, 31, 63] {
        let mut list = vec![0; 64];
        list[place] = 65_535;
        lists.push(list);
    }
    lists.push([1_021, READ | 1_021].repeat(32));
    lists
}

/// A call whose saved calls are made up.
pub struct MadeUp<'a> {
    pub case: &'a Case,
    description: Description,
}

impl<'a> MadeUp<'a> {
    pub fn of(case: &'a Case) -> Self {
        MadeUp {
            case,
            description: (&case.asked).into(),
        }
    }

    fn operations(&self) -> &[u8] {
        rattle::bytes(&self.case.asked.operations)
    }

    pub fn begin(&self) -> [u8; SAVED] {
        let mut saved = [0; SAVED];
        let buffer = &self.case.buffer;
        rattle::begin(&self.description, self.operations(), buffer, &mut saved);
        saved
    }

    pub fn next(&self, saved: &[u8]) -> Next {
        let buffer = &self.case.buffer;
        rattle::next(&self.description, self.operations(), saved, buffer)
    }

    pub fn advance(
        &self,
        saved: &mut [u8],
        buffer: &mut [u8],
        answers: &[u32],
        log: &mut [u8],
    ) -> Advanced {
        let answers = rattle::bytes(answers);
        rattle::advance(
            &self.description,
            self.operations(),
            saved,
            buffer,
            answers,
            log,
        )
    }

    /// No advance takes this one: it is refused as 13, and changes nothing.
    pub fn refused(&self, before: [u8; SAVED]) -> Result<(), String> {
        let next = Next {
            kind: NONE_REFUSED,
            value: 13,
        };
        same("the next access", next, self.next(&before))?;
        let mut saved = before;
        let mut buffer = self.case.buffer.clone();
        let mut log = [0xB1; 2 * ENTRY];
        let given = self.advance(&mut saved, &mut buffer, &[TXE, 0], &mut log);
        let expected = Advanced {
            report: REFUSED,
            value: 13,
            awaited: 0,
            used: 0,
            written: 0,
        };
        same("the advance", expected, given)?;
        let kept = saved == before && buffer == self.case.buffer && log == [0xB1; 2 * ENTRY];
        same("what a refused advance keeps", true, kept)
    }
}

/// A transaction that goes to its end, and what its pieces are.
struct Pieces<'a> {
    call: MadeUp<'a>,
    pieces: Vec<Piece>,
    /// The CR2 word of each, by the Rust's run.
    controls: Vec<u32>,
    /// A saved call for each of the stands.
    stands: Vec<[u8; SAVED]>,
}

impl<'a> Pieces<'a> {
    fn of(case: &'a Case) -> Self {
        let run = Run::of(case);
        let controls = run.log.iter().filter(|entry| entry[0] == WRITTEN + CR2);
        Pieces {
            call: MadeUp::of(case),
            pieces: pieces::of(&case.asked.operations),
            controls: controls.map(|entry| entry[1]).collect(),
            stands: (0..STANDS.len()).map(stand).collect(),
        }
    }

    /// Tries every saved call, and gives their number.
    fn check(&self, kinds: &mut Kinds) -> Result<u64, String> {
        same(
            "the count of pieces",
            self.controls.len(),
            self.pieces.len(),
        )?;
        let count = self.pieces.len() as u32;
        let past = [
            count + 254,
            count + 255,
            count + 256,
            65_535,
            65_536,
            1 << 31,
            u32::MAX,
        ];
        let mut tried = 0;
        for piece in (0..count + 3).chain(past) {
            let size = self.piece(piece).map_or(0, |it| it.size as u32);
            let mut bytes = vec![0, 1, 253, 254, 255, 256, 257, 65_535, u32::MAX];
            bytes.extend(around(size));
            bytes.sort();
            bytes.dedup();
            for byte in bytes {
                for (stand, saved) in STANDS.into_iter().zip(&self.stands) {
                    let mut saved = *saved;
                    rattle::put(&mut saved, saved::PIECE, piece);
                    rattle::put(&mut saved, saved::BYTE, byte);
                    self.try_one(stand, saved).map_err(|told| {
                        format!("a saved call at piece {piece}, byte {byte}, {stand:?}: {told}")
                    })?;
                    tried += 1;
                }
                if let Some(saved) = counted(piece, byte, count, size) {
                    kinds.add(Kind::Saved(saved));
                }
            }
        }
        Ok(tried)
    }

    fn piece(&self, number: u32) -> Option<Piece> {
        self.pieces.get(number as usize).copied()
    }

    fn try_one(&self, stand: Stand, saved: [u8; SAVED]) -> Result<(), String> {
        let byte = rattle::word(&saved, saved::BYTE) as usize;
        let number = rattle::word(&saved, saved::PIECE);
        let piece = self.piece(number);
        let taken =
            piece.filter(|it| byte <= it.size + 1 && (stand != Stand::Byte || byte < it.size));
        let Some(piece) = taken else {
            return self.call.refused(saved);
        };
        let (kind, value) = match stand {
            Stand::Begin => (rattle::WRITE, CR2),
            Stand::StartStatus | Stand::Wait => (rattle::READ, ISR),
            Stand::StartControl => (rattle::READ, CR2),
            Stand::Byte if piece.reads => (rattle::READ, RXDR),
            Stand::Byte => (rattle::WRITE, TXDR),
        };
        let next = self.call.next(&saved);
        same("the next access", Next { kind, value }, next)?;
        match stand {
            Stand::Begin => {
                let control = [WRITTEN + CR2, self.controls[number as usize]];
                self.makes(saved, &[], &[control], None)
            }
            Stand::Wait if byte < piece.size && piece.reads => {
                self.makes(saved, &[RXNE], &[[ISR, RXNE]], None)
            }
            Stand::Wait if byte < piece.size => self.makes(saved, &[TXIS], &[[ISR, TXIS]], None),
            Stand::Wait if byte == piece.size => self.ends(number, saved),
            Stand::Byte if piece.reads => {
                let received = [RXDR, 0xABCD_EF00 | u32::from(!self.byte(piece, byte))];
                self.makes(saved, &[received[1]], &[received], Some(piece.start + byte))
            }
            Stand::Byte => {
                let sent = [WRITTEN + TXDR, self.byte(piece, byte).into()];
                self.makes(saved, &[], &[sent], None)
            }
            _ => Ok(()),
        }
    }

    fn byte(&self, piece: Piece, byte: usize) -> u8 {
        self.call.case.buffer[piece.start + byte]
    }

    /// The wait for the end of a piece: TCR, TC or STOPF by its CR2 word, and no other flag.
    fn ends(&self, number: u32, saved: [u8; SAVED]) -> Result<(), String> {
        let control = self.controls[number as usize];
        let awaited = match (control & RELOAD != 0, control & AUTOEND != 0) {
            (true, _) => TCR,
            (_, true) => STOPF,
            _ => TC,
        };
        let others = (TC | TCR | STOPF | TXIS | RXNE) & !awaited;
        self.makes(saved, &[others], &[[ISR, others]], None)?;
        let next = match self.controls.get(number as usize + 1) {
            Some(&control) => [WRITTEN + CR2, control],
            None => [WRITTEN + ICR, STOPF],
        };
        self.makes(saved, &[awaited], &[[ISR, awaited], next], None)
    }

    /// An advance with these answers and as many places as there are entries makes these entries,
    /// and changes no byte but perhaps one.
    fn makes(
        &self,
        mut saved: [u8; SAVED],
        answers: &[u32],
        entries: &[[u32; 2]],
        changed: Option<usize>,
    ) -> Result<(), String> {
        let before = &self.call.case.buffer;
        let mut buffer = before.clone();
        let mut log = vec![0; entries.len() * ENTRY];
        let given = self
            .call
            .advance(&mut saved, &mut buffer, answers, &mut log);
        same(
            "the report",
            true,
            matches!(given.report, 0 | FULL | WAITING),
        )?;
        let counts = (given.used, given.written);
        same("the counts", (answers.len(), entries.len()), counts)?;
        same("the entries", rattle::bytes(entries.as_flattened()), &log)?;
        let mut expected = before.clone();
        if let Some(place) = changed {
            expected[place] = !expected[place];
        }
        same("the buffer", true, expected == buffer)
    }
}

/// The saved call after so many accesses of a write of one byte.
fn stand(accesses: usize) -> [u8; SAVED] {
    let case = transaction(&[1]).bytes(&[0x12]);
    let call = MadeUp::of(&case);
    let mut saved = call.begin();
    let mut log = vec![0; accesses * ENTRY];
    call.advance(&mut saved, &mut [0x12], &[TXE, 0, TXIS], &mut log);
    saved
}

fn around(size: u32) -> RangeInclusive<u32> {
    size.saturating_sub(1)..=size + 2
}

/// What is counted of a saved call at a piece of so many, which has so many bytes.
fn counted(piece: u32, byte: u32, count: u32, size: u32) -> Option<Saved> {
    match (piece, byte) {
        (piece, 0) if piece == count - 1 => Some(Saved::LastPiece),
        (piece, 0) if piece == count => Some(Saved::PastPiece),
        (piece, byte) if piece < count && byte == size + 1 => Some(Saved::LastByte),
        (piece, byte) if piece < count && byte == size + 2 => Some(Saved::PastByte),
        _ => None,
    }
}

#[cfg(test)]
mod tests {
    use super::*;

    #[test]
    fn a_write_of_one_byte_stands_in_each_way() {
        let case = transaction(&[1]).bytes(&[0x12]);
        let each = Pieces::of(&case);
        let next = each.stands.iter().map(|saved| each.call.next(saved));
        let next: Vec<(u32, u32)> = next.map(|it| (it.kind, it.value)).collect();
        let (read, write) = (rattle::READ, rattle::WRITE);
        let expected = [
            (write, CR2),
            (read, ISR),
            (read, CR2),
            (read, ISR),
            (write, TXDR),
        ];
        assert_eq!(next, expected);
    }

    #[test]
    fn the_lists_have_few_pieces_and_the_most() {
        let counts: Vec<usize> = lists().iter().map(|it| pieces::of(it).len()).collect();
        assert_eq!(counts, [1, 2, 2, 11, 257, 257, 258, 320, 320, 320, 320]);
        let most = lists().into_iter().all(|it| pieces::sum(&it) <= 65_535);
        assert!(most);
    }

    #[test]
    fn a_saved_call_that_is_taken_for_another_is_told() {
        let case = transaction(&[256]).zeros(256).goes_through();
        let mut each = Pieces::of(&case);
        let mut kinds = Kinds::default();
        assert!(each.check(&mut kinds).is_ok());
        each.controls[1] ^= RELOAD;
        assert!(each.check(&mut kinds).is_err());
        let mut each = Pieces::of(&case);
        each.pieces[0].size -= 1;
        assert!(each.check(&mut kinds).is_err());
        let mut each = Pieces::of(&case);
        each.pieces.pop();
        each.controls.pop();
        assert!(each.check(&mut kinds).is_err());
    }
}
