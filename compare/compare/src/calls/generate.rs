//! Random calls: every number, every limit from both sides, and answers that take most of them far.

use oracle::{explore, Asked, WAYS};

use super::answers::{Answers, Stretch};
use super::build::{call, READ};
use super::case::Case;
use super::chip::{ARLO, BERR, NACKF, STOPF};
use super::known::MANUAL_WRITES;
use super::pieces::sum;
use crate::random::Random;

/// The listed calls.
pub const LISTED: [u32; 21] = [
    1, 2, 3, 4, 5, 6, 7, 8, 9, 10, 11, 12, 13, 14, 15, 24, 25, 26, 27, 28, 29,
];

/// Calls that move bytes, which have the most ways to go.
const TRANSFERS: [u32; 10] = [7, 7, 9, 10, 11, 12, 25, 26, 27, 28];

pub const UNLISTED: [u32; 8] = [0, 16, 23, 30, 31, 32, 0x107, u32::MAX];

pub fn case(random: &mut Random) -> Case {
    let mut case = described(random);
    case.answers = answers(&case, random);
    case
}

/// As `case`; but one in 32 goes to its end with its lengths at their limits, in one in 64 nothing
/// happens for long, and one in 64 is a manual write that meets a NACK between two blocks.
pub fn case_or_edge(random: &mut Random) -> Case {
    match random.up_to(63) {
        0 | 1 => edge(random),
        2 => idling(random),
        3 => between_blocks(random),
        _ => case(random),
    }
}

/// A call with its lengths at their limits, and the answers by which it comes to its end.
pub fn edge(random: &mut Random) -> Case {
    let mut case = Case::default();
    let asked = &mut case.asked;
    asked.call = random.pick(&TRANSFERS);
    let length = if asked.call == 7 {
        asked.operations = edge_operations(random);
        sum(&asked.operations)
    } else {
        edge_length(random)
    };
    ending(case, length, None, random)
}

/// A manual write that meets a NACK at byte 0 of a later block, the last or another, or next to it.
pub fn between_blocks(random: &mut Random) -> Case {
    let case = call(random.pick(&MANUAL_WRITES));
    let border = 255 * (1 + random.up_to(2)) as usize;
    let length = border + random.pick(&[1, 2, 255, 256, 257, 511]);
    let bytes = random.pick(&[border, border, border - 1, border + 1]);
    ending(case, length, Some(bytes), random)
}

/// A call with a buffer of this length and the answers by which it comes to its end, for a target's
/// transfer perhaps after so many bytes.
fn ending(mut case: Case, length: usize, bytes: Option<usize>, random: &mut Random) -> Case {
    case.buffer.resize_with(length, || random.word() as u8);
    let mut choices = Answers::to_the_end(case.asked.call, length, random.split());
    if let Some(bytes) = bytes {
        choices = choices.moving(bytes);
    }
    case.answers = chosen(&case, choices);
    case
}

/// Lengths at the edges of pieces, and counts at theirs; now and then as many bytes as there may
/// be, or one too much of either.
fn edge_operations(random: &mut Random) -> Vec<u32> {
    let count = match random.up_to(15) {
        0 => 63 + random.up_to(1),
        1 if random.up_to(3) == 0 => 65,
        _ => 1 + random.up_to(2),
    };
    let mut operations = Vec::new();
    for _ in 0..count {
        let length = match random.up_to(15) {
            0 => edge_of_piece(random.up_to(8), random),
            _ => random.pick(&[0, 1, 254, 255, 256, 510, 511]),
        };
        operations.push(length | random.pick(&[0, READ]));
    }
    if random.up_to(31) == 0 {
        let bytes = 65_535 + u32::from(random.up_to(3) == 0);
        fill_up(&mut operations, bytes, random);
    }
    operations
}

/// A length around so many whole pieces.
fn edge_of_piece(pieces: u32, random: &mut Random) -> u32 {
    (255 * pieces + random.up_to(2)).saturating_sub(1)
}

/// Has an operation, and if one is not enough another, take what is left of so many bytes.
fn fill_up(operations: &mut Vec<u32>, bytes: u32, random: &mut Random) {
    let mut left = bytes.saturating_sub(sum(operations) as u32);
    for _ in 0..2 {
        let length = left.min(65_535);
        let place = random.up_to(operations.len() as u32) as usize;
        if length > 0 {
            operations.insert(place, length | random.pick(&[0, READ]));
        }
        left -= length;
    }
    // The list had as many as there may be: one of them goes, if it has no byte.
    if operations.len() > 64 {
        if let Some(place) = operations.iter().position(|it| it & 0xFFFF == 0) {
            operations.remove(place);
        }
    }
}

/// The length of a target's buffer at the edge of a block, mostly of one of the first.
fn edge_length(random: &mut Random) -> usize {
    let length = match random.up_to(63) {
        0 => random.up_to(65_536),
        1 => 65_534 + random.up_to(2),
        2..=4 => 255 * random.up_to(257) + random.up_to(2),
        _ => 255 * random.up_to(4) + random.up_to(2),
    };
    length.saturating_sub(random.up_to(1)) as usize
}

/// A call in which for a long time nothing happens.
fn idling(random: &mut Random) -> Case {
    let mut case = described(random);
    let length = case.buffer.len();
    let polls = match random.up_to(31) {
        0 => 70_000,
        _ => random.pick(&[20, 70, 300, 1_100, 5_000]),
    };
    let stretch = Stretch {
        after: random.up_to(2 * length.min(1_000) as u32 + 10),
        word: random.pick(&[0, 0, 0, BERR, ARLO, NACKF, STOPF]),
        polls,
    };
    let choices = Answers::to_the_end(case.asked.call, length, random.split());
    case.answers = chosen(&case, choices.stretched(stretch));
    case
}

/// Answers as the driver asks for them, and perhaps a few more.
pub fn answers(case: &Case, random: &mut Random) -> Vec<u32> {
    let choices = Answers::new(case.asked.call, case.buffer.len(), random.split());
    let mut answers = chosen(case, choices);
    if random.up_to(1) == 0 {
        answers.extend((0..random.up_to(3)).map(|_| random.word()));
    }
    answers
}

/// The answers that are chosen as the driver asks for them; none if it cannot express the call.
pub fn chosen(case: &Case, mut choices: Answers) -> Vec<u32> {
    let mut buffer = case.buffer.clone();
    match case.asked.description(buffer.len()) {
        Some(description) => explore(&description, &mut buffer, move |it| choices.choose(it)),
        None => Vec::new(),
    }
}

/// A call and its buffer, without answers.
pub fn described(random: &mut Random) -> Case {
    let mut asked = Asked {
        call: number(random),
        ..Default::default()
    };
    if random.up_to(1) == 0 {
        fill_with_anything(&mut asked, random);
    }
    let mut length = own_words(&mut asked, random);
    if random.up_to(7) == 0 {
        length = spoil(&mut asked, length, random);
    }
    let mut buffer = vec![0; length];
    if length < 2_000 && random.up_to(3) != 0 {
        buffer.fill_with(|| random.word() as u8);
    }
    Case {
        asked,
        buffer,
        answers: Vec::new(),
    }
}

fn number(random: &mut Random) -> u32 {
    match random.up_to(31) {
        0 => random.pick(&UNLISTED),
        1..=12 => random.pick(&LISTED),
        _ => random.pick(&TRANSFERS),
    }
}

/// Words that the call may not look at.
fn fill_with_anything(asked: &mut Asked, random: &mut Random) {
    asked.address = random.of_length(32);
    asked.ten_bit = random.up_to(1) == 0;
    asked.listen = random.of_length(32);
    asked.timingr = random.word();
    asked.own_address = random.of_length(32);
    asked.own_ten_bit = random.up_to(1) == 0;
    asked.secondary_address = Some(random.of_length(31));
    asked.mask = Some(random.of_length(31));
    asked.operations = (0..random.up_to(5)).map(|_| random.of_length(32)).collect();
}

/// The words that the call does look at, all within their limits, and the length of its buffer.
fn own_words(asked: &mut Asked, random: &mut Random) -> usize {
    match asked.call {
        1..=3 => {
            asked.timingr = random.word();
            asked.configured = random.up_to(1) == 0;
            if asked.call != 1 || asked.configured {
                configure(asked, random);
            }
        }
        4 | 5 => asked.listen = random.up_to(2),
        7 => {
            asked.ten_bit = random.up_to(1) == 0;
            asked.address = address(asked.ten_bit, random);
            asked.operations = operations(random);
            return sum(&asked.operations);
        }
        9..=12 => return length(random).max(1),
        25..=28 => return length(random),
        _ => {}
    }
    [0, random.up_to(3)][random.up_to(1) as usize] as usize
}

fn address(ten_bit: bool, random: &mut Random) -> u32 {
    let most = if ten_bit { 1_023 } else { 127 };
    match random.up_to(3) {
        0 => random.pick(&[0, 1, most - 1, most]),
        _ => random.up_to(most),
    }
}

fn configure(asked: &mut Asked, random: &mut Random) {
    asked.own_ten_bit = random.up_to(1) == 0;
    asked.own_address = address(asked.own_ten_bit, random);
    asked.secondary_address = (random.up_to(3) != 0).then(|| address(false, random));
    asked.mask = (random.up_to(3) != 0).then(|| random.up_to(6));
    asked.way = random.up_to(WAYS - 1);
}

fn operations(random: &mut Random) -> Vec<u32> {
    let count = match random.up_to(15) {
        0 => 0,
        1 => random.pick(&[16, 63, 64]),
        2 => random.up_to(64),
        _ => 1 + random.up_to(4),
    };
    let long = random.up_to(7) == 0;
    let mut direction = random.pick(&[0, READ]);
    let mut operation = || {
        if random.up_to(1) == 0 {
            direction ^= READ;
        }
        direction
            | match random.up_to(7) {
                0 if long => random.pick(&[254, 255, 256, 257, 509, 510, 511, 766]),
                1 => 0,
                2 if long => random.up_to(255),
                3 if long => random.up_to(1_100),
                _ => random.up_to(6),
            }
    };
    (0..count).map(|_| operation()).collect()
}

/// The length of a target's buffer.
fn length(random: &mut Random) -> usize {
    let edges = [
        0, 1, 2, 254, 255, 256, 257, 509, 510, 511, 512, 600, 764, 765, 766, 1_020, 1_021,
    ];
    match random.up_to(15) {
        0..=5 => random.pick(&edges),
        6 => random.up_to(600) as usize,
        7 if random.up_to(31) == 0 => 65_535,
        _ => random.up_to(9) as usize,
    }
}

/// Puts one of the call's words beyond its limit; gives the length of the buffer.
fn spoil(asked: &mut Asked, length: usize, random: &mut Random) -> usize {
    let most = |ten_bit| if ten_bit { 1_023 } else { 127 };
    match asked.call {
        1..=3 => match random.up_to(2) {
            0 => asked.own_address = wide(most(asked.own_ten_bit), 0xFFFF, random),
            1 => asked.secondary_address = Some(wide(127, 0xFF, random)),
            _ => asked.mask = Some(wide(6, 0xFF, random)),
        },
        4 | 5 => asked.listen = wide(2, 2, random),
        7 => return spoil_transaction(asked, length, random),
        9..=12 => return random.pick(&[0, 0, 0, 65_536]),
        _ if random.up_to(15) == 0 => return 65_536,
        _ => {}
    }
    length
}

/// A number above its limit, mostly one that still fits the driver's type.
fn wide(most: u32, fits: u32, random: &mut Random) -> u32 {
    match random.up_to(7) {
        0 => random.pick(&[fits + 1, 1 << 16, 1 << 31, u32::MAX - 1]),
        1 => most + 1 + random.of_length(16),
        2 => fits.max(most + 1),
        3 => most + 1,
        _ => most + 1 + random.up_to(fits.saturating_sub(most + 1)),
    }
}

/// One thing wrong; lists of too many bytes are few, since they take their time.
fn spoil_transaction(asked: &mut Asked, length: usize, random: &mut Random) -> usize {
    match random.up_to(4) {
        0 => {
            let (most, fits) = [(127, 0xFF), (1_023, 0xFFFF)][usize::from(asked.ten_bit)];
            asked.address = wide(most, fits, random);
        }
        1 => return length + 1,
        2 => return length.saturating_sub(1),
        3 if random.up_to(3) == 0 => {
            let bytes = random.pick(&[65_536, 65_537, 66_000]);
            fill_up(&mut asked.operations, bytes, random);
            return sum(&asked.operations);
        }
        _ => match random.up_to(1) {
            0 => {
                let count = 65 + random.up_to(10) as usize;
                asked
                    .operations
                    .resize_with(count, || random.pick(&[0, READ]));
                return sum(&asked.operations);
            }
            _ => asked.operations.push(1 << (17 + random.up_to(14))),
        },
    }
    length
}

#[cfg(test)]
mod tests {
    use super::*;
    use crate::calls::run::Run;

    #[test]
    fn edges_come_to_their_end() {
        let mut random = Random::new(1);
        for _ in 0..500 {
            let case = edge(&mut random);
            let run = Run::of(&case);
            let text = format!("call {} with {} bytes", run.call, run.buffer.len());
            assert!(
                run.is_refused() || run.word == "done",
                "{text} {}",
                run.word
            );
        }
    }

    #[test]
    fn random_transfers_fill_long_buffers() {
        let mut random = Random::new(1);
        let mut full = Vec::new();
        for _ in 0..20_000 {
            let run = Run::of(&case(&mut random));
            let length = run.buffer.len();
            if run.word == "done" && length > 600 && run.value as usize == length {
                full.push(run.call);
            }
        }
        for number in [9, 10, 11, 12, 25, 26, 27, 28] {
            assert!(full.contains(&number), "call {number}");
        }
    }

    #[test]
    fn configurations_are_built_in_every_way() {
        let mut random = Random::new(1);
        let mut ways = vec![false; WAYS as usize];
        for _ in 0..2_000 {
            let mut asked = Asked::default();
            configure(&mut asked, &mut random);
            ways[asked.way as usize] = true;
        }
        assert!(ways.into_iter().all(|it| it));
    }
}
