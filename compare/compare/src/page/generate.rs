//! Random logs, most of them short, about a third damaged, and rooms for their pages.

use super::case::{Case, Room};
use super::registers::codes;
use crate::random::Random;

/// Codes of no register: offsets between two registers and after the last, a second 0x100, a high
/// bit, a byte that is not aligned.
const UNKNOWN: [u32; 16] = [
    0x14,
    0x20,
    0x2C,
    0x114,
    0x120,
    0x12C,
    0x218,
    0x200,
    0x300,
    0x8000_0018,
    0x0001_0018,
    0x0100_0000,
    0x01,
    0x1A,
    0x30,
    u32::MAX,
];

pub fn case(random: &mut Random) -> Case {
    let count = match random.up_to(1_023) {
        0 => random.up_to(4_000),
        1..=15 => random.up_to(400),
        16..=127 => random.up_to(60),
        128..=150 => 0,
        _ => random.up_to(12),
    };
    let mut case = undamaged(count, random);
    if random.up_to(2) == 0 {
        damage(&mut case, random);
    }
    case
}

/// A log of so many entries, with a page.
pub fn undamaged(count: u32, random: &mut Random) -> Case {
    Case {
        entries: (0..count).map(|_| entry(random)).collect(),
        rest: Vec::new(),
        room: room(random),
    }
}

fn entry(random: &mut Random) -> [u32; 2] {
    let code = codes().nth(random.up_to(17) as usize);
    [code.expect("there are 18"), value(random)]
}

fn value(random: &mut Random) -> u32 {
    let word = random.word();
    match random.up_to(9) {
        0 => 0,
        1 => u32::MAX,
        2 => 1 << random.up_to(31),
        3 => !(1 << random.up_to(31)),
        // Few bits, or few that are not set.
        4 => word & random.word() & random.word(),
        5 => word | random.word() | random.word(),
        // As the peripheral answers, without what is in no field.
        6 => word & 0x07FF_FFFF,
        7 => random.of_length(32),
        _ => word,
    }
}

fn room(random: &mut Random) -> Room {
    match random.up_to(9) {
        0..=3 => Room::Spare(0),
        4 => Room::Spare(1 + random.up_to(200) as usize),
        5 => Room::Spare(random.up_to(3) as usize),
        6 => Room::Short(1),
        7 => Room::Short(1 + random.up_to(100) as usize),
        8 => Room::Bytes(0),
        _ => Room::Bytes(random.up_to(3_000) as usize),
    }
}

/// One thing wrong, or more; in half of the logs the room is not what is.
fn damage(case: &mut Case, random: &mut Random) {
    if random.up_to(1) == 0 {
        case.room = Room::Spare(random.up_to(1) as usize);
    }
    loop {
        match random.up_to(4) {
            0 => add_rest(case, 4, random),
            1 => add_rest(case, 1 + random.up_to(6), random),
            _ => damage_code(case, random),
        }
        if random.up_to(3) != 0 {
            return;
        }
    }
}

fn add_rest(case: &mut Case, bytes: u32, random: &mut Random) {
    case.rest = (0..bytes).map(|_| random.pick(&[0, 0x18, 0xFF])).collect();
}

/// Another code at the first entry, at the last or at some other. It may be of a register still.
fn damage_code(case: &mut Case, random: &mut Random) {
    let Some(last) = case.entries.len().checked_sub(1) else {
        return;
    };
    let between = random.up_to(last as u32) as usize;
    let [code, _] = &mut case.entries[random.pick(&[0, last, between])];
    *code = match random.up_to(3) {
        0 => *code ^ 1 << random.up_to(31),
        1 => random.of_length(32),
        _ => random.pick(&UNKNOWN),
    };
}

#[cfg(test)]
mod tests {
    use super::super::print::Wrong;
    use super::*;

    #[test]
    fn logs_of_all_kinds() {
        let mut random = Random::new(1);
        let cases: Vec<Case> = (0..5_000).map(|_| case(&mut random)).collect();
        let share = |is: &dyn Fn(&Case) -> bool| cases.iter().filter(|case| is(case)).count();
        let given = |is: &dyn Fn(&Result<String, Wrong>) -> bool| {
            share(&|case: &Case| is(&case.expected().1))
        };
        assert!(given(&|page| page.is_ok()) > 1_500);
        assert!(given(&|page| *page == Err(Wrong::NotWhole)) > 300);
        assert!(given(&|page| *page == Err(Wrong::TooLong)) > 300);
        assert!(given(&|page| matches!(page, Err(Wrong::NoRegister(_)))) > 300);
        assert!(share(&|case| case.entries.is_empty()) > 50);
        assert!(share(&|case| case.entries.len() > 100) > 20);
        assert!(share(&|case| case.is_odd()) > 100);
        let known: Vec<u32> = codes().collect();
        assert!(UNKNOWN.iter().all(|code| !known.contains(code)));
    }
}
