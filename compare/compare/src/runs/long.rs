//! Long calls: a long poll in every wait, long lists, operations at the edges of all pieces, many
//! filling zeros, and every transfer of a target at the edges of all blocks.

use super::kinds::{TRANSFERS, TRANSMISSIONS};
use super::progress::Stop;
use super::shown;
use super::words;
use super::Comparison;
use crate::calls::answers::{Answers, Stretch};
use crate::calls::build::{call, counted, READ};
use crate::calls::case::Case;
use crate::calls::chip::{ARLO, BERR, NACKF, STOPF, TC, WRITTEN};
use crate::calls::generate;
use crate::calls::pieces;
use crate::calls::run::Run;
use crate::random::Random;

/// Buffers up to this length are left at every edge, longer ones at their end and somewhere.
const SHORT: usize = 1_100;

/// How many answers a wait gets before it goes on: more polls than sixteen bits count, even where each
/// has two.
const POLLS: u32 = 140_000;

/// Status words that end an operation of a transaction with an error.
const ERRORS: [u32; 4] = [BERR, ARLO, NACKF, STOPF];

/// How many filling zeros follow a buffer: more than sixteen bits count.
const ZEROS: usize = 70_000;

/// Goes through all of them.
pub fn all(comparison: &mut Comparison) -> Result<(), Stop> {
    let before = comparison.progress.runs;
    let mut random = comparison.random.split();
    for case in words::small() {
        let name = words::name(&case.asked, case.buffer.len());
        comparison.progress.part = format!("long polls of {name}");
        polls(comparison, case)?;
    }
    between_pieces(comparison)?;
    lists(comparison, &mut random)?;
    operations(comparison, &mut random)?;
    many_pieces(comparison, &mut random)?;
    for length in [1, 255, 256, 766, 65_535] {
        comparison.progress.part = format!("filling zeros after {length} bytes");
        for number in TRANSMISSIONS {
            transfer(comparison, number, length, length + ZEROS, &mut random)?;
        }
    }
    for length in lengths() {
        comparison.progress.part = format!("transfers of {length} bytes");
        for number in TRANSFERS {
            for end in ends(length, &mut random) {
                transfer(comparison, number, length, end, &mut random)?;
            }
        }
    }
    let runs = comparison.progress.runs - before;
    println!("runs: long polls, lists, operations, zeros and buffers: {runs} runs");
    Ok(())
}

/// The lengths at the edges of every block, up to one byte more than may be lent, and some others.
fn lengths() -> Vec<usize> {
    let edges = (1..=257).flat_map(|block| [255 * block - 1, 255 * block, 255 * block + 1]);
    let some = [0, 1, 2, 600, 601, 65_533];
    let mut lengths: Vec<usize> = edges.chain(some).collect();
    lengths.sort();
    lengths
}

/// After how many bytes the controller ends a transfer, for each of some.
fn ends(length: usize, random: &mut Random) -> Vec<usize> {
    if length > SHORT {
        return vec![length + 2, random.up_to(length as u32 + 3) as usize];
    }
    let around = |edge: usize| edge.saturating_sub(1)..=edge + 2;
    let blocks = (0..=length / 255).flat_map(|block| around(255 * block));
    let mut ends: Vec<usize> = blocks.chain(around(length)).collect();
    ends.sort();
    ends.dedup();
    ends
}

/// A transfer that the controller ends after so many bytes, if it does not end before.
fn transfer(
    comparison: &mut Comparison,
    number: u32,
    length: usize,
    end: usize,
    random: &mut Random,
) -> Result<(), Stop> {
    let case = call(number).bytes(&counted(length));
    let choices = Answers::to_the_end(number, length, random.split());
    answered(comparison, case, choices.moving(end))
}

/// Lists of as many operations and bytes as there may be, to their end and to an error somewhere.
fn lists(comparison: &mut Comparison, random: &mut Random) -> Result<(), Stop> {
    comparison.progress.part = "long lists".to_string();
    for lengths in [[0, 0], [1, 1], [254, 254], [255, 255], [0, 255], [255, 1]] {
        for directions in [[0, 0], [READ, READ], [0, READ], [READ, 0]] {
            let pair = [lengths[0] | directions[0], lengths[1] | directions[1]];
            let case = words::operations(&pair.repeat(32));
            goes_well(comparison, &case, random)?;
            for word in ERRORS.repeat(8) {
                fails(comparison, &case, word, random)?;
            }
        }
    }
    Ok(())
}

/// A transaction goes to its end.
fn goes_well(comparison: &mut Comparison, case: &Case, random: &mut Random) -> Result<(), Stop> {
    let choices = Answers::to_the_end(7, case.buffer.len(), random.split());
    answered(comparison, case.clone(), choices)
}

/// A transaction meets a status word somewhere.
fn fails(
    comparison: &mut Comparison,
    case: &Case,
    word: u32,
    random: &mut Random,
) -> Result<(), Stop> {
    let length = case.buffer.len();
    let stretch = Stretch {
        after: random.up_to(2 * length as u32 + 200),
        word,
        polls: random.up_to(3),
    };
    let choices = Answers::to_the_end(7, length, random.split());
    answered(comparison, case.clone(), choices.stretched(stretch))
}

/// Operations of every length around a multiple of 255, out and in, to their end; and to an error
/// somewhere or beside another one, short ones both. A short one is put beside each of some, in
/// both orders, in every pair of directions and at both kinds of address.
fn operations(comparison: &mut Comparison, random: &mut Random) -> Result<(), Stop> {
    for length in shown::lengths() {
        comparison.progress.part = format!("operations of {length} bytes");
        for direction in [0, READ] {
            let operation = direction | length;
            let alone = at_some_address(words::operations(&[operation]), random);
            goes_well(comparison, &alone, random)?;
            let is_short = length as usize <= SHORT;
            if is_short || random.up_to(1) == 0 {
                fails(comparison, &alone, random.pick(&ERRORS), random)?;
            } else {
                let other = random.pick(&[0, 1, 255, 256, 65_535 - length]);
                let list = beside(operation, other, random);
                let case = at_some_address(words::operations(&list), random);
                goes_well(comparison, &case, random)?;
            }
            if is_short {
                short_operations(comparison, operation, random)?;
            }
        }
    }
    Ok(())
}

fn short_operations(
    comparison: &mut Comparison,
    operation: u32,
    random: &mut Random,
) -> Result<(), Stop> {
    for other in [0, 1, 254, 255, 256, 510, 511] {
        for other in [other, READ | other] {
            for list in [[operation, other], [other, operation]] {
                let case = words::operations(&list);
                for case in [case.clone(), case.ten_bit(0x2A5)] {
                    goes_well(comparison, &case, random)?;
                    fails(comparison, &case, random.pick(&ERRORS), random)?;
                }
            }
        }
    }
    Ok(())
}

/// An operation and another of so many bytes, if there is room for it, in some order and direction.
fn beside(operation: u32, other: u32, random: &mut Random) -> Vec<u32> {
    let other = other.min(65_535 - (operation & 0xFFFF)) | random.pick(&[0, READ]);
    match random.up_to(1) {
        0 => vec![operation, other],
        _ => vec![other, operation],
    }
}

fn at_some_address(case: Case, random: &mut Random) -> Case {
    match random.up_to(1) {
        0 => case,
        _ => case.ten_bit(random.up_to(0x3FF)),
    }
}

/// Lists of as many pieces as there may be: an operation of 65,535 bytes with empty ones before it,
/// after it and around it, and 64 operations with a byte in their last piece; all of one direction,
/// by turns of two, and mixed. And one byte too many.
fn many_pieces(comparison: &mut Comparison, random: &mut Random) -> Result<(), Stop> {
    comparison.progress.part = "lists of 320 pieces".to_string();
    let mut lists = vec![[1_021; 64]];
    for place in [0, 1, 31, 62, 63] {
        let mut list = [0; 64];
        list[place] = 65_535;
        lists.push(list);
    }
    for list in lists {
        for turn in 0..4 {
            let mut list = list;
            for (place, word) in list.iter_mut().enumerate() {
                *word |= match turn {
                    0 => 0,
                    1 => READ,
                    2 => [0, READ][place % 2],
                    _ => random.pick(&[0, READ]),
                };
            }
            let case = at_some_address(words::operations(&list), random);
            goes_well(comparison, &case, random)?;
            for word in ERRORS {
                fails(comparison, &case, word, random)?;
            }
            let over = 65_536 - pieces::sum(&list) as u32;
            if let Some(short) = list.iter_mut().find(|word| **word & 0xFFFF < 65_535) {
                *short += over;
            }
            goes_well(comparison, &words::operations(&list), random)?;
        }
    }
    for list in [[32_768; 2], [65_535, READ | 1], [READ, READ | 65_535]] {
        goes_well(comparison, &words::operations(&list), random)?;
    }
    Ok(())
}

/// Long polls around the border between the two pieces of an operation, also after a flag that is
/// not awaited there and after an error.
fn between_pieces(comparison: &mut Comparison) -> Result<(), Stop> {
    comparison.progress.part = "long polls between pieces".to_string();
    for list in [[256], [READ | 256]] {
        let mut case = words::operations(&list);
        let choices = || Answers::to_the_end(7, 256, Random::new(1));
        case.answers = generate::chosen(&case, choices());
        let log = Run::of(&case).log;
        let border = pieces::later_controls(&case.asked, &log)[0];
        let reads = log[..border].iter().filter(|entry| entry[0] < WRITTEN);
        let border = reads.count() as u32;
        for after in border - 3..=border + 4 {
            for word in [&[0, TC][..], &ERRORS].concat() {
                let stretch = Stretch {
                    after,
                    word,
                    polls: POLLS,
                };
                answered(comparison, case.clone(), choices().stretched(stretch))?;
            }
        }
    }
    Ok(())
}

/// A call that is polled for long, in turn before each of its answers; a transaction also after an
/// error.
fn polls(comparison: &mut Comparison, case: Case) -> Result<(), Stop> {
    let mut words = vec![0];
    if case.asked.call == 7 {
        words.extend(ERRORS);
    }
    let length = case.buffer.len();
    let choices = || {
        let choices = Answers::to_the_end(case.asked.call, length, Random::new(1));
        choices.moving(length + 2)
    };
    let answers = generate::chosen(&case, choices()).len() as u32;
    for word in words {
        for after in 0..answers {
            let stretch = Stretch {
                after,
                word,
                polls: POLLS,
            };
            answered(comparison, case.clone(), choices().stretched(stretch))?;
        }
    }
    Ok(())
}

/// Compares a call with the answers that are chosen for it, uncut and cut.
fn answered(comparison: &mut Comparison, mut case: Case, choices: Answers) -> Result<(), Stop> {
    case.answers = generate::chosen(&case, choices);
    comparison.check((&case).into(), true).map(|_| ())
}

#[cfg(test)]
mod tests {
    use super::*;

    #[test]
    fn every_boundary_is_among_the_lengths() {
        let lengths = lengths();
        for length in [0, 1, 254, 255, 256, 509, 510, 511, 600, 601, 764, 765, 766] {
            assert!(lengths.contains(&length), "{length}");
        }
        for length in [1_019, 1_020, 1_021, 65_279, 65_280, 65_281, 65_534, 65_535] {
            assert!(lengths.contains(&length), "{length}");
        }
        assert_eq!(lengths.last(), Some(&65_536));
    }

    #[test]
    fn short_transfers_are_left_at_every_edge() {
        let ends = ends(511, &mut Random::new(1));
        let blocks = [0, 1, 2, 254, 255, 256, 257, 509, 510, 511, 512];
        assert_eq!(ends, [&blocks[..], &[513]].concat());
    }
}
