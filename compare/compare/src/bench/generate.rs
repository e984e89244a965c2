//! Random bench files: most small, about a half of them damaged in some way, and all limits from
//! both sides.

use super::entry::{self, Entry, BYTES};
use super::meaning;
use crate::calls::build::{call, READ};
use crate::calls::case::Case;
use crate::calls::generate::{self, LISTED, UNLISTED};
use crate::random::Random;

/// Where numbers begin or cease to fit.
const EDGES: [u32; 24] = [
    0,
    1,
    2,
    3,
    6,
    7,
    127,
    128,
    255,
    256,
    1_023,
    1_024,
    65_535,
    65_536,
    65_537,
    READ + 1_023,
    READ + 1_024,
    131_071,
    131_072,
    1 << 24,
    1 << 30,
    1 << 31,
    u32::MAX - 1,
    u32::MAX,
];

pub fn file(random: &mut Random) -> Vec<u8> {
    let mut entries = entries(random);
    if random.up_to(2) == 0 {
        damage(&mut entries, random);
    }
    if random.up_to(63) == 0 {
        fill(&mut entries, random);
    }
    let mut file = entry::write(&entries);
    if random.up_to(4) == 0 {
        damage_bytes(&mut file, random);
    }
    file
}

/// The file with the longest text: as many calls as there may be, each with the longest buffer. Its text takes the program
/// several windows, which no random file does.
pub fn longest() -> Vec<u8> {
    let case = Case {
        buffer: vec![0; 65_535],
        answers: [5, 0x41].repeat(125),
        ..call(9)
    };
    entry::write(&vec![meaning::entry(&case); 64])
}

/// Calls that a file can have, but now and then one too many.
fn entries(random: &mut Random) -> Vec<Entry> {
    let (count, most) = match random.up_to(31) {
        0 => (0, 0),
        1 => (random.pick(&[63, 64, 64, 65]), 40),
        2 => (random.up_to(64), 100),
        3 => (random.up_to(20), 2_000),
        it => (1 + it % 3, usize::MAX),
    };
    let mut entries = Vec::new();
    let mut words = 1;
    while entries.len() < count as usize {
        let entry = meaning::entry(&case(random));
        if entry.size() > most {
            // An empty one takes the place of a call that is too long.
            entries.push(meaning::entry(&call(random.pick(&LISTED))));
        } else if words + entry.size() <= BYTES / 4 {
            words += entry.size();
            entries.push(entry);
        } else {
            break;
        }
    }
    entries
}

/// A call with the answers that it asks for where it is described by a file; one in sixteen has its
/// lengths at their edges, as far as a file has room, and mostly goes to its end, and one in 32 is a
/// manual write that mostly meets a NACK between two blocks.
fn case(random: &mut Random) -> Case {
    let edge = match random.up_to(31) {
        0 | 1 => Some(generate::edge(random)),
        2 => Some(generate::between_blocks(random)),
        _ => None,
    };
    if let Some(edge) = edge {
        let mut case = meaning::as_read(&edge);
        if random.up_to(3) == 0 {
            let kept = random.up_to(case.answers.len() as u32);
            case.answers.truncate(kept as usize);
        }
        return case;
    }
    let mut described = generate::described(random);
    if described.asked.call == 7 && random.up_to(15) == 0 {
        read_much(&mut described, random);
    }
    let mut case = meaning::as_read(&described);
    case.answers = generate::answers(&case, random);
    case
}

/// Operations that take no words of the head, and a sum around what is lent at most.
fn read_much(case: &mut Case, random: &mut Random) {
    let lengths: &[u32] = match random.up_to(7) {
        0 => &[65_535],
        1 => &[65_535, 1],
        2 => &[65_535, 2],
        3 => &[65_535; 20],
        4 => &[256; 256],
        5 => &[32_768; 2],
        6 => &[1_021; 64],
        _ => &[255; 64],
    };
    let operations = lengths.iter().map(|length| READ | length);
    case.asked.operations.extend(operations);
}

/// Has the last call take the file to its limit or just over it.
fn fill(entries: &mut [Entry], random: &mut Random) {
    let words: usize = entries.iter().map(Entry::size).sum();
    let Some(last) = entries.last_mut() else {
        return;
    };
    let most = BYTES / 4 + random.pick(&[0, 0, 1, 100]);
    for _ in 1 + words..most {
        last.answers.push(random.pick(&[0, 1, 0x27, u32::MAX]));
    }
}

/// Damage that leaves the lengths right.
fn damage(entries: &mut Vec<Entry>, random: &mut Random) {
    if entries.is_empty() {
        entries.push(Entry::default());
    }
    let place = random.up_to(entries.len() as u32 - 1);
    let entry = &mut entries[place as usize];
    match random.up_to(9) {
        0 | 1 => entry.argument = edge(random),
        2 => {
            entry.number = match random.up_to(2) {
                0 => entry.number ^ 16,
                1 => random.pick(&UNLISTED),
                _ => random.up_to(40),
            }
        }
        3 | 4 => put(&mut entry.head, random),
        5 => entry.head.push(edge(random)),
        6 => drop(entry.head.pop()),
        7 => move_word(entry, random),
        8 => exceed(entry, random),
        _ => put(&mut entry.answers, random),
    }
}

fn edge(random: &mut Random) -> u32 {
    match random.up_to(3) {
        0 => random.of_length(32),
        _ => random.pick(&EDGES),
    }
}

/// Changes one of these words, of which the first have the most meanings.
fn put(words: &mut [u32], random: &mut Random) {
    let Some(last) = words.len().checked_sub(1) else {
        return;
    };
    let last = [last, last.min(5)][random.up_to(1) as usize];
    let word = &mut words[random.up_to(last as u32) as usize];
    match random.up_to(2) {
        0 => *word ^= 1 << random.up_to(31),
        1 => *word = word.wrapping_add(random.pick(&[1, 256, u32::MAX])),
        _ => *word = edge(random),
    }
}

/// Puts a mode or a byte just beyond what it may be, or an argument where there is none.
fn exceed(entry: &mut Entry, random: &mut Random) {
    let (words, most) = match (meaning::kind(entry.number), entry.head.len()) {
        (1..=3, length @ 4..) => (&mut entry.head[length - 3..][..1], 1),
        (7, length @ 3..) => (&mut entry.head[length - 1..], 255),
        (10 | 12, 1..) => (&mut entry.head[..], 255),
        _ => return entry.argument = 1,
    };
    let place = random.up_to(words.len() as u32 - 1);
    words[place as usize] = random.pick(&[most + 1, most + 2, u32::MAX]);
}

/// Has a word of the head go to the answers, or the other way.
fn move_word(entry: &mut Entry, random: &mut Random) {
    if random.up_to(1) == 0 {
        if let Some(word) = entry.head.pop() {
            entry.answers.insert(0, word);
        }
    } else if !entry.answers.is_empty() {
        entry.head.push(entry.answers.remove(0));
    }
}

/// Damage to a file of which nothing is known.
fn damage_bytes(file: &mut Vec<u8>, random: &mut Random) {
    let some = |random: &mut Random| match random.up_to(1) {
        0 => random.up_to(8) as usize,
        _ => 4 * random.up_to(8) as usize,
    };
    match random.up_to(7) {
        0 => flip(file, random),
        1 => file.truncate(file.len().saturating_sub(some(random))),
        2 => file.resize(file.len() + some(random), random.word() as u8),
        3 => file.truncate(random.up_to(file.len() as u32) as usize),
        4 => insert_or_remove(file, random),
        5 => recount(file, random),
        6 => shift_lengths(file, random),
        _ => *file = anything(random),
    }
}

fn flip(file: &mut [u8], random: &mut Random) {
    if let Some(last) = file.len().checked_sub(1) {
        let last = [last, last.min(40)][random.up_to(1) as usize];
        file[random.up_to(last as u32) as usize] ^= 1 << random.up_to(7);
    }
}

fn insert_or_remove(file: &mut Vec<u8>, random: &mut Random) {
    let (mut words, _) = entry::words(file);
    let place = random.up_to(words.len() as u32) as usize;
    if place < words.len() && random.up_to(1) == 0 {
        words.remove(place);
    } else {
        words.insert(place, edge(random));
    }
    *file = entry::bytes(&words);
}

/// Another number of calls.
fn recount(file: &mut Vec<u8>, random: &mut Random) {
    let (mut words, _) = entry::words(file);
    if let Some(count) = words.first_mut() {
        // The last three times 16 are the bytes of a small table, cut to a word.
        let wrapping = [1 << 28, 1 << 30, count.wrapping_add(1 << 28)];
        let near = [0, 1, 64, 65, count.wrapping_sub(1), count.wrapping_add(1)];
        *count = match random.up_to(2) {
            0 => edge(random),
            1 => random.pick(&wrapping),
            _ => random.pick(&near),
        };
    }
    *file = entry::bytes(&words);
}

/// Makes a call's head longer and its answers as much shorter, or the other way; the sum stays, if
/// only as a word.
fn shift_lengths(file: &mut Vec<u8>, random: &mut Random) {
    let (mut words, _) = entry::words(file);
    let count = words.first().map_or(0, |&count| count.min(64));
    if count > 0 {
        let place = 4 * random.up_to(count - 1) as usize;
        let by = random.pick(&[1, 2, 4, 1 << 30, 1 << 31, u32::MAX]);
        if let Some([head, answers]) = words.get_mut(place + 3..place + 5) {
            *head = head.wrapping_add(by);
            *answers = answers.wrapping_sub(by);
        }
    }
    *file = entry::bytes(&words);
}

/// Words or bytes that no one has written.
fn anything(random: &mut Random) -> Vec<u8> {
    let length = random.up_to(80);
    match random.up_to(2) {
        0 => (0..length).map(|_| random.word() as u8).collect(),
        1 => entry::bytes(&(0..length).map(|_| edge(random)).collect::<Vec<u32>>()),
        _ => entry::bytes(&(0..length).map(|_| random.up_to(9)).collect::<Vec<u32>>()),
    }
}

#[cfg(test)]
mod tests {
    use super::*;

    #[test]
    fn files_of_all_kinds() {
        let mut random = Random::new(1);
        let files: Vec<Vec<u8>> = (0..2_000).map(|_| file(&mut random)).collect();
        let share = |is: &dyn Fn(&[u8]) -> bool| files.iter().filter(|file| is(file)).count();
        let refused = share(&|file| meaning::read(file).is_none());
        assert!((400..1_200).contains(&refused), "{refused} are refused");
        assert!(share(&|file| file.is_empty()) > 0);
        assert!(share(&|file| file.len() % 4 != 0) > 20);
        assert!(share(&|file| file.len() == BYTES) > 2);
        assert!(share(&|file| file.len() > BYTES) > 2);
        assert!(share(&|file| file.len() < 4_000) > 1_200);
        let counted = |count| share(&|file| entry::read(file).is_some_and(|it| it.len() == count));
        assert!(counted(0) > 10 && counted(64) > 10);
        assert!(share(&|file| file.starts_with(&[65, 0, 0, 0])) > 5);
    }
}
