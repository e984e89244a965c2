//! Answers to a call's reads: mostly such that the call goes on, and now and then anything.

use std::mem;

use super::chip::*;
use crate::random::Random;

/// How many answers a call gets at most that need not come to its end.
const MOST: u32 = 3_000;

/// Chooses the answers of one call.
pub struct Answers {
    random: Random,
    /// How many answers are left to give.
    left: u32,
    /// Of a thousand status words, how many say nothing new, say something else than what is
    /// awaited, or say anything at all.
    idle: u32,
    wrong: u32,
    any: u32,
    /// The flags of an event that is still to come.
    event: Option<u32>,
    /// How many bytes of a target's transfer go well, the flag by which each does, and what then ends
    /// it. Other calls have no such number.
    bytes: Option<u32>,
    flag: u32,
    end: u32,
    stretch: Stretch,
}

/// A stretch of answers in which nothing happens.
#[derive(Clone, Copy, Default)]
pub struct Stretch {
    /// How many answers come before it.
    pub after: u32,
    /// A status word that comes just before it, if it is not 0.
    pub word: u32,
    /// How many answers it has.
    pub polls: u32,
}

impl Answers {
    pub fn new(call: u32, length: usize, mut random: Random) -> Self {
        let left = match random.up_to(7) {
            0 => random.up_to(3),
            1 => random.up_to(40),
            2 => random.up_to(2 * length.min(1_000) as u32 + 20),
            _ => MOST,
        };
        let idle = random.pick(&[0, 10, 100, 500]);
        let wrong = random.pick(&[0, 0, 0, 2, 20, 200]);
        let any = random.pick(&[0, 0, 0, 0, 2, 20, 1_000]);
        let bytes = match random.up_to(3) {
            0 => edge(length, &mut random),
            1 => random.up_to(length as u32 + 2),
            _ => length as u32 + random.up_to(3),
        };
        let kind = if call >= 24 { call - 16 } else { call };
        let direction = match kind {
            8 | 13 => Some(random.pick(&[0, DIR])),
            11 => Some(random.pick(&[0, 0, 0, 0, 0, 0, 0, DIR])),
            12 => Some(random.pick(&[0, DIR, DIR, DIR, DIR, DIR, DIR, DIR])),
            _ => None,
        };
        let flags = match random.up_to(9) {
            0 => STOPF,
            1 => STOPF | ADDR,
            _ => ADDR,
        };
        let transmits = matches!(kind, 10 | 12);
        let transfers = matches!(kind, 9..=12);
        Answers {
            left,
            idle,
            wrong,
            any,
            event: direction.map(|direction| direction | flags),
            bytes: transfers.then_some(bytes),
            flag: if transmits { TXIS } else { RXNE },
            end: if transmits {
                NACKF
            } else {
                random.pick(&[STOPF, ADDR])
            },
            stretch: Stretch::default(),
            random,
        }
    }

    /// Answers by which a call comes to its end, however long it is, and an event fits.
    pub fn to_the_end(call: u32, length: usize, random: Random) -> Self {
        let answers = Answers::new(call, length, random);
        Answers {
            // More than any call takes, so that even a driver that never ends is left.
            left: 10 * length as u32 + 10_000,
            idle: answers.idle.min(100),
            wrong: 0,
            any: 0,
            event: match call {
                11 | 27 => Some(ADDR),
                12 | 28 => Some(ADDR | DIR),
                _ => answers.event,
            },
            ..answers
        }
    }

    /// So many bytes of a target's transfer go well.
    pub fn moving(self, bytes: usize) -> Self {
        let bytes = bytes as u32;
        Answers {
            left: self.left + 10 * bytes,
            bytes: self.bytes.and(Some(bytes)),
            ..self
        }
    }

    pub fn stretched(self, stretch: Stretch) -> Self {
        let left = self.left + stretch.polls;
        Answers {
            left,
            stretch,
            ..self
        }
    }

    /// The answer to a read of the register at this offset, if there is one left.
    pub fn choose(&mut self, offset: u32) -> Option<u32> {
        self.left = self.left.checked_sub(1)?;
        let stretch = self.in_stretch(offset);
        Some(stretch.unwrap_or_else(|| self.usual(offset)))
    }

    /// The answer, if the stretch has come and is not over.
    fn in_stretch(&mut self, offset: u32) -> Option<u32> {
        let Stretch { after, word, polls } = &mut self.stretch;
        if *after > 0 {
            *after -= 1;
            return None;
        }
        if *word != 0 {
            return (offset == ISR).then(|| mem::take(word));
        }
        *polls = polls.checked_sub(1)?;
        Some(match offset {
            ISR => self.nothing_new(),
            CR1 => PE,
            CR2 => START,
            _ => self.random.word(),
        })
    }

    fn usual(&mut self, offset: u32) -> u32 {
        let noise = self.random.word();
        match offset {
            ISR => self.status(),
            CR1 => self.pending(noise, PE),
            CR2 => self.pending(noise, START),
            OAR1 => self.own_address(noise),
            _ => noise,
        }
    }

    /// An own address as it is written, in seven bits like that of a header or in ten, or anything.
    fn own_address(&mut self, noise: u32) -> u32 {
        let enabled = self.random.pick(&[0, OA1EN]);
        match self.random.up_to(2) {
            0 => enabled | header(&mut self.random) << 1,
            1 => enabled | OA1MODE | noise & OA1,
            _ => noise,
        }
    }

    fn in_thousand(&mut self, share: u32) -> bool {
        self.random.up_to(999) < share
    }

    /// A control word whose flag is mostly not set any more.
    fn pending(&mut self, noise: u32, flag: u32) -> u32 {
        let noise = if self.random.up_to(3) == 0 { noise } else { 0 };
        if self.in_thousand(100) {
            noise | flag
        } else {
            noise & !flag
        }
    }

    /// Bits of a status word that no wait looks at.
    fn noise(&mut self) -> u32 {
        match self.random.up_to(3) {
            0 => self.random.word() & 0xFFFF_FC00,
            _ => 0,
        }
    }

    fn nothing_new(&mut self) -> u32 {
        self.noise() | self.random.pick(&[0, TXE])
    }

    fn status(&mut self) -> u32 {
        if self.in_thousand(self.any) {
            self.random.word()
        } else if self.in_thousand(self.wrong) {
            self.noise() | self.wrong()
        } else if self.in_thousand(self.idle) {
            self.nothing_new()
        } else if let Some(flags) = self.event.take() {
            self.event(flags)
        } else if self.bytes == Some(0) {
            self.noise() | self.end | self.random.pick(&[0, TXE, TXE | TXIS])
        } else {
            let word = self.progress();
            let moved = u32::from(word & self.flag != 0);
            self.bytes = self.bytes.map(|bytes| bytes - moved);
            self.noise() | word
        }
    }

    /// Flags that end a call or that it does not await.
    fn wrong(&mut self) -> u32 {
        let flags = [BERR, ARLO, NACKF, STOPF, ADDR, TC, TCR];
        let mut word = self.random.pick(&flags);
        while self.random.up_to(2) == 0 {
            word |= self.random.pick(&flags) | self.random.pick(&[TXE, TXIS, RXNE]);
        }
        word
    }

    fn event(&mut self, flags: u32) -> u32 {
        let code = match self.random.up_to(3) {
            0 => header(&mut self.random),
            _ => self.random.up_to(127),
        };
        let below = self.random.pick(&[0, TXE, TXE, TXE | TXIS, RXNE]);
        self.noise() & 0xFF00_FC00 | addcode(code) | flags | below
    }

    /// Flags by which a call goes on whatever it awaits; often some of them are missing.
    fn progress(&mut self) -> u32 {
        let mut word = TXIS | RXNE | TC | TCR | STOPF;
        if self.random.up_to(1) == 0 {
            word |= TXE;
        }
        for flag in [TXIS, RXNE, TC, TCR] {
            if self.random.up_to(7) == 0 {
                word &= !flag;
            }
        }
        // A stop or an address without a byte ends a transfer that comes in.
        if word & RXNE == 0 || self.random.up_to(1) == 0 {
            word &= !STOPF;
        } else if self.random.up_to(7) == 0 {
            word |= ADDR;
        }
        word
    }
}

/// The ADDCODE of a ten-bit header, or one next to it.
fn header(random: &mut Random) -> u32 {
    0x77 + random.up_to(5)
}

/// A count of bytes at the start, at an edge of a block or at the end of a buffer.
fn edge(length: usize, random: &mut Random) -> u32 {
    let length = length as u32;
    let block = 255 * random.up_to(length / 255);
    let before = block.saturating_sub(1);
    random.pick(&[0, 1, 2, before, block, block + 1, length, length + 5])
}

#[cfg(test)]
mod tests {
    use super::*;
    use crate::calls::build::{call, counted};
    use crate::calls::case::Case;
    use crate::calls::generate::chosen;
    use crate::calls::run::Run;

    fn run(mut case: Case, choices: Answers) -> Run {
        case.answers = chosen(&case, choices);
        Run::of(&case)
    }

    /// Bytes that went over the bus, without a flush.
    fn moved(run: &Run) -> usize {
        let log = run.log.iter();
        let before_flush = log.take_while(|&&it| it != [WRITTEN + ICR, NACKF]);
        let moves = before_flush.filter(|it| [RXDR, WRITTEN + TXDR].contains(&it[0]));
        moves.count()
    }

    #[test]
    fn as_many_bytes_are_moved_as_are_said() {
        for (seed, length) in [1, 255, 600, 766, 65_535].into_iter().enumerate() {
            for number in [9, 10, 11, 12, 25, 26, 27, 28] {
                for bytes in [0, 1, length - 1, length, length + 2] {
                    let random = Random::new(seed as u64);
                    let choices = Answers::to_the_end(number, length, random).moving(bytes);
                    let run = run(call(number).bytes(&counted(length)), choices);
                    let receives = matches!(number, 9 | 11 | 25 | 27);
                    let most = if receives { length } else { length + 2 };
                    assert_eq!(run.word, "done", "call {number}");
                    assert_eq!(
                        moved(&run),
                        bytes.min(most),
                        "call {number}, {length} bytes"
                    );
                }
            }
        }
    }

    #[test]
    fn nothing_happens_in_a_stretch() {
        let polls = 5_000;
        for after in 0..6 {
            for word in [0, NACKF] {
                let stretch = Stretch { after, word, polls };
                let choices = Answers::to_the_end(10, 3, Random::new(1)).moving(9);
                let run = run(call(10).bytes(&counted(3)), choices.stretched(stretch));
                let idle = |it: &&[[u32; 2]]| {
                    let flags = |&[code, word]: &[u32; 2]| code == ISR && word & 0x3FE == 0;
                    it.iter().all(flags)
                };
                let windows = run.log.windows(polls as usize);
                let stretches = windows.filter(idle).count();
                assert_eq!(stretches > 0, word == 0, "after {after}");
            }
        }
    }
}
