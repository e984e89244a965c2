//! What a call is lent: that of a real run, damaged, or anything.

use oracle::{cut, Asked};

use crate::calls::case::Case;
use crate::calls::generate;
use crate::random::Random;
use crate::rattle::{self, Description, ENTRY, SAVED};

/// All that a call is lent.
#[derive(Clone, Debug, Default)]
pub struct Bytes {
    pub description: Description,
    pub operations: Vec<u8>,
    pub saved: Vec<u8>,
    pub buffer: Vec<u8>,
    pub answers: Vec<u8>,
    pub log: Vec<u8>,
}

impl Bytes {
    /// A call that was begun, with its answers still to come.
    pub fn begun(random: &mut Random) -> Self {
        let case = generate::case(random);
        let Case {
            asked,
            buffer,
            answers,
        } = case;
        let mut bytes = Bytes {
            description: (&asked).into(),
            operations: rattle::bytes(&asked.operations).to_vec(),
            saved: vec![0; SAVED],
            buffer,
            answers: rattle::bytes(&answers).to_vec(),
            log: Vec::new(),
        };
        let Bytes {
            description,
            operations,
            saved,
            buffer,
            ..
        } = &mut bytes;
        rattle::begin(description, operations, buffer, saved);
        bytes
    }

    /// What the next call on this is lent: some of the answers, and a log.
    pub fn lent(&self, random: &mut Random) -> Self {
        let some = random.pick(&[40, 40, 40, 300]);
        let some = random.up_to(some) as usize;
        let answers = &self.answers[..some.min(self.answers.len())];
        // A long one now and then: the library makes its accesses in pieces of 8 and of 128.
        let places = random.pick(&[9, 9, 9, 300]);
        let log = random.up_to(places) as usize * ENTRY + random.up_to(7) as usize;
        let mut lent = self.clone_without_answers();
        lent.answers.extend_from_slice(answers);
        lent.log.resize(log, 0);
        lent.log.fill_with(|| random.word() as u8);
        lent
    }

    fn clone_without_answers(&self) -> Self {
        Bytes {
            description: self.description,
            operations: self.operations.clone(),
            saved: self.saved.clone(),
            buffer: self.buffer.clone(),
            ..Default::default()
        }
    }

    /// Damages some of it.
    pub fn damage(&mut self, random: &mut Random) {
        loop {
            match random.up_to(10) {
                0 => damage_word(self.description_word(random), random),
                1 => self.description = any_description(random),
                2 => damage_bytes(&mut self.operations, random),
                3 => damage_length(&mut self.buffer, random),
                4 => damage_length(&mut self.saved, random),
                5 => self.saved = any_saved(self.description.call, random),
                6 => damage_length(&mut self.answers, random),
                7 => damage_bytes(&mut self.answers, random),
                8 => self.add_operation(random),
                _ => damage_saved(&mut self.saved, random),
            }
            if random.up_to(2) != 0 {
                return;
            }
        }
    }

    /// One operation more, with its bytes: one that takes more than a piece, now and then one that
    /// is as long as may be, so that the buffer is mostly too long.
    fn add_operation(&mut self, random: &mut Random) {
        let length = match random.up_to(63) {
            0 if self.buffer.len() < 10_000 => 65_535,
            _ => random.pick(&[256, 510, 511]),
        };
        self.operations.extend(rattle::bytes(&[length]));
        self.buffer.resize(self.buffer.len() + length as usize, 0);
    }

    /// How many pieces the call has: a saved call that has not ended is at one of them, or at the
    /// first of none.
    pub fn pieces(&self) -> usize {
        let length = self.buffer.len();
        match self.description.call {
            7 => cut(&self.operations()).len(),
            9..=12 => 1,
            25..=28 => length.div_ceil(255),
            _ => 0,
        }
    }

    /// The operations, as far as they are looked at.
    fn operations(&self) -> Vec<u32> {
        self.operations.chunks_exact(4).take(65).map(word).collect()
    }

    fn description_word(&mut self, random: &mut Random) -> &mut u32 {
        let it = &mut self.description;
        match random.up_to(10) {
            0 => &mut it.call,
            1 => &mut it.address,
            2 => &mut it.ten,
            3 => &mut it.listen,
            4 => &mut it.timingr,
            5 => &mut it.configured,
            6 => &mut it.own,
            7 => &mut it.own_ten,
            8 => &mut it.secondary,
            9 => &mut it.mask,
            _ => &mut it.reserved[random.up_to(5) as usize],
        }
    }

    /// The refusal of the description, if there is one.
    pub fn refusal(&self) -> Option<u32> {
        let some = |word| (word != Description::NONE).then_some(word);
        let it = self.description;
        let operations = match it.call {
            7 => self.operations(),
            _ => Vec::new(),
        };
        let asked = Asked {
            call: it.call,
            address: it.address,
            ten_bit: it.ten != 0,
            operations,
            listen: it.listen,
            timingr: it.timingr,
            configured: it.configured != 0,
            own_address: it.own,
            own_ten_bit: it.own_ten != 0,
            secondary_address: some(it.secondary),
            mask: some(it.mask),
            way: 0,
        };
        asked.refusal(self.buffer.len())
    }
}

fn word(bytes: &[u8]) -> u32 {
    u32::from_le_bytes(bytes.try_into().expect("four bytes"))
}

/// Words at limits, and any.
fn any_word(random: &mut Random) -> u32 {
    match random.up_to(3) {
        0 => random.up_to(70),
        1 => random.pick(&[127, 128, 254, 255, 256, 1_023, 1_024, 65_535, 65_536]),
        2 => random.pick(&[0, 1 << 31, u32::MAX - 1, u32::MAX]),
        _ => random.of_length(32),
    }
}

fn damage_word(word: &mut u32, random: &mut Random) {
    *word = match random.up_to(3) {
        0 => *word ^ 1 << random.up_to(31),
        1 => word.wrapping_add(random.pick(&[1, u32::MAX])),
        _ => any_word(random),
    };
}

fn damage_bytes(bytes: &mut Vec<u8>, random: &mut Random) {
    match random.up_to(3) {
        0 => damage_length(bytes, random),
        1 => {
            // Up to more words than a list may have.
            let length = random.up_to(280) as usize;
            bytes.resize_with(length, || random.word() as u8);
        }
        _ => {
            if let Some(last) = bytes.len().checked_sub(1) {
                let place = random.up_to(last as u32) as usize;
                bytes[place] = random.word() as u8;
            }
        }
    }
}

fn damage_length(bytes: &mut Vec<u8>, random: &mut Random) {
    let length = match random.up_to(5) {
        0 => 0,
        1 => bytes.len().saturating_sub(1),
        2 => bytes.len() + 1,
        3 if random.up_to(99) == 0 => 65_535 + random.up_to(1) as usize,
        _ => random.up_to(70) as usize,
    };
    bytes.resize(length, random.word() as u8);
}

/// One byte or one word of a saved call is another.
fn damage_saved(saved: &mut [u8], random: &mut Random) {
    let words = saved.len() / 4;
    if words == 0 {
        return;
    }
    let place = 4 * random.up_to(words as u32 - 1) as usize;
    let bytes = &mut saved[place..place + 4];
    if random.up_to(1) == 0 {
        bytes[random.up_to(3) as usize] = random.word() as u8;
    } else {
        let mut damaged = word(bytes);
        damage_word(&mut damaged, random);
        bytes.copy_from_slice(&damaged.to_le_bytes());
    }
}

/// Words that are often a saved call of this call, and any bytes.
fn any_saved(call: u32, random: &mut Random) -> Vec<u8> {
    if random.up_to(3) == 0 {
        return (0..SAVED).map(|_| random.word() as u8).collect();
    }
    let outcome = random.up_to(10);
    let value = match outcome {
        0 | 7 | 8 => random.of_length(32),
        _ => random.up_to(7) / 7,
    };
    let words = [
        call,
        random.of_length(10),
        random.of_length(9),
        random.word(),
        [random.of_length(20), u32::MAX][random.up_to(1) as usize],
        outcome,
        value,
        random.up_to(rattle::STEPS),
        random.of_length(10),
    ];
    rattle::bytes(&words).to_vec()
}

fn any_description(random: &mut Random) -> Description {
    Description {
        call: random.up_to(31),
        address: any_word(random),
        ten: random.up_to(2),
        listen: random.up_to(3),
        timingr: random.word(),
        configured: random.up_to(2),
        own: any_word(random),
        own_ten: random.up_to(1) << 31,
        secondary: any_word(random),
        mask: any_word(random),
        reserved: [0; 6].map(|_| random.word()),
    }
}
