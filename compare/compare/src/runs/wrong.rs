//! An advance with something wrong: it is refused by the right number and changes nothing.

use oracle::Asked;

use super::check::{same, Input, Lent};
use crate::calls::build::READ;
use crate::calls::generate::{LISTED, UNLISTED};
use crate::calls::known::MANUAL_WRITES;
use crate::calls::pieces;
use crate::random::Random;
use crate::rattle::{self, saved, Advanced, Description, Next, NONE_REFUSED, REFUSED};

/// What is lent wrongly.
struct Wrong {
    asked: Asked,
    saved: Vec<u8>,
    buffer: Vec<u8>,
}

pub fn check(lent: &mut Lent, input: Input, random: &mut Random) -> Result<(), String> {
    let mut wrong = Wrong {
        asked: input.asked.clone(),
        saved: lent.saved.to_vec(),
        buffer: lent.buffer.content().to_vec(),
    };
    if random.up_to(3) == 0 {
        wrong.buffer.fill_with(|| random.word() as u8);
    }
    wrong.make(random);
    // Where the description is still a right one, the saved call is not.
    let refusal = wrong.asked.refusal(wrong.buffer.len()).unwrap_or(13);
    wrong.refused(lent, refusal, random)
}

impl Wrong {
    fn make(&mut self, random: &mut Random) {
        let call = self.asked.call;
        match random.up_to(6) {
            0 => {
                let others: Vec<u32> = LISTED.into_iter().filter(|&it| it != call).collect();
                self.asked.call = random.pick(&others);
                return;
            }
            1 => self.asked.call = random.pick(&UNLISTED),
            2 if call == 7 => self.spoil_list(random),
            2 if matches!(call, 9..=12) => self.buffer.clear(),
            2 if matches!(call, 4 | 5) => self.asked.listen = 3 + random.of_length(20),
            3 if call == 7 => self.asked.address = 1_024 + random.of_length(20),
            3 if matches!(call, 2 | 3) => self.asked.mask = Some(7 + random.up_to(100)),
            _ => {}
        }
        if self.asked.refusal(self.buffer.len()).is_none() {
            self.damage(random);
        }
    }

    fn spoil_list(&mut self, random: &mut Random) {
        match random.up_to(31) {
            // As long as an operation may be: with it the list has mostly too many bytes.
            0 => {
                self.asked.operations.push(0xFFFF);
                self.buffer.resize(self.buffer.len() + 0xFFFF, 0);
            }
            1..=8 => self.buffer.push(0),
            9..=16 => self.asked.operations.push(1 | random.pick(&[0, READ])),
            17..=24 => self.asked.operations.push(1 << (17 + random.up_to(14))),
            _ => self.asked.operations.resize(65, 0),
        }
    }

    /// Makes the saved call one that no advance of this call takes.
    fn damage(&mut self, random: &mut Random) {
        let ended = rattle::word(&self.saved, saved::STEP) == 0;
        let far = random.pick(&[65_537, u32::MAX, 1 << 31]);
        let sizes = self.sizes();
        let piece = rattle::word(&self.saved, saved::PIECE) as usize;
        let size = sizes.get(piece).copied().unwrap_or(0) as u32;
        // A call without pieces counts as having an empty one.
        let past = sizes.len().max(1) as u32;
        let counts = MANUAL_WRITES.contains(&self.asked.call);
        match random.up_to(7) {
            0 => self.put(saved::CALL, random.pick(&[0, 16, 30, u32::MAX])),
            1 => self.put(saved::OUTCOME, 10 + random.of_length(28)),
            2 => self.put(saved::STEP, 46 + random.of_length(28)),
            3 => {
                self.put(saved::OUTCOME, random.pick(&[1, 2, 3, 4, 5, 6, 9]));
                self.put(saved::VALUE, 1 + random.of_length(28));
            }
            4 if !ended => {
                let number = random.pick(&[past, past + 1, past + 255, past + 256, far]);
                self.put(saved::PIECE, number);
            }
            5 if !ended => self.put(saved::BYTE, random.pick(&[size + 2, size + 256, far])),
            6 if !ended && counts => {
                let length = self.buffer.len() as u32;
                let number = random.pick(&[length + 2, length + 3, length + 256, far]);
                self.put(saved::OUT, number);
            }
            _ => {
                let lengths = [0, 1, 4, 32, 35, 37, 40, 64];
                self.saved.resize(random.pick(&lengths), 0);
            }
        }
    }

    /// The lengths of the call's pieces.
    fn sizes(&self) -> Vec<usize> {
        let length = self.buffer.len();
        match self.asked.call {
            7 => {
                let pieces = pieces::of(&self.asked.operations).into_iter();
                pieces.map(|piece| piece.size).collect()
            }
            9..=12 => vec![length],
            25..=28 => {
                let starts = (0..length).step_by(255);
                starts.map(|start| (length - start).min(255)).collect()
            }
            _ => Vec::new(),
        }
    }

    fn put(&mut self, number: usize, word: u32) {
        rattle::put(&mut self.saved, number, word);
    }

    fn refused(
        &mut self,
        lent: &mut Lent,
        refusal: u32,
        random: &mut Random,
    ) -> Result<(), String> {
        let description = Description::from(&self.asked);
        let operations = rattle::bytes(&self.asked.operations);
        let next = Next {
            kind: NONE_REFUSED,
            value: refusal,
        };
        let given = rattle::next(&description, operations, &self.saved, &self.buffer);
        same("the next access of a wrong call", next, given)?;

        let (saved, buffer) = (self.saved.clone(), self.buffer.clone());
        let answers = lent.answers.content();
        let some = random.up_to(answers.len().min(9) as u32) as usize;
        let given = rattle::advance(
            &description,
            operations,
            &mut self.saved,
            &mut self.buffer,
            &answers[..some],
            lent.log.lend(random.up_to(40) as usize, 0),
        );
        let expected = Advanced {
            report: REFUSED,
            value: refusal,
            awaited: 0,
            used: 0,
            written: 0,
        };
        same("a wrong advance", expected, given)?;
        let kept = saved == self.saved && buffer == self.buffer && lent.log.written(0).is_some();
        same("what a wrong advance keeps", true, kept)
    }
}
