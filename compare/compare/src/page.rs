//! `compare page`, `compare page-program`, `compare page-text` and `compare store-page`: the service
//! page of a log (document 02, R-2), by a printer that shares nothing with the Rattle.

mod case;
pub mod generate;
mod large;
pub mod print;
mod program;
mod reached;
pub mod registers;
pub mod sample;
mod shrink;

use std::{fs, io};

use crate::difference;
use crate::random::Random;
use crate::rattle;
use crate::runs::room::{Room as Lent, BLANK};
use case::Case;
use print::Wrong;
use reached::Reached;

pub use case::MOST;
pub use program::compare as compare_program;

/// Document 02's number for a log without a page, or one that has too little room.
pub const REFUSED: u32 = 15;

/// From so many logs on nothing may be missing.
const ENOUGH: u64 = 10_000;

/// From so many on there is also a page that no room could take.
const MANY: u64 = 100_000;

/// How many entries are shown of a difference at most.
const SHOWN: usize = 100;

/// Compares random logs, and the large ones. True if all went well.
pub fn compare(logs: u64, seed: u64) -> bool {
    println!("page: large logs, and {logs} random ones from seed {seed}");
    let mut random = Random::new(seed);
    let mut reached = Reached::default();
    let large = large::past_a_million(&mut reached).and_then(|()| match logs >= MANY {
        true => large::past_a_word(),
        false => Ok(()),
    });
    if let Err(told) = large {
        println!("page: a difference: {told}");
        return false;
    }
    for _ in 0..logs {
        let case = generate::case(&mut random);
        let (room, page) = case.expected();
        let shift = random.up_to(7) as usize;
        if let Err(told) = check(&case.log(), room, shift, &page) {
            show(&case, &told);
            return false;
        }
        reached.count(&case, room, &page);
        if reached.logs.is_multiple_of(20_000) {
            eprintln!("page: {} logs", reached.logs);
        }
    }
    reached.print();
    println!("page: {logs} random logs compared, 0 differences");
    let missing = reached.missing();
    let all = logs < ENOUGH || missing.is_empty();
    if !all {
        println!("page: not reached: {}", missing.join("; "));
    }
    all
}

/// Holds the library to a page, or to the refusal; both slices lie so many bytes after an aligned
/// place.
fn check(
    log: &[u8],
    room: usize,
    shift: usize,
    expected: &Result<String, Wrong>,
) -> Result<(), String> {
    let mut lent_log = Lent::default();
    let mut lent_page = Lent::default();
    lent_log.hold(log, shift);
    lent_page.hold(&vec![BLANK; room], 7 - shift);
    let mut length = u64::MAX;
    let number = rattle::page(lent_log.content(), lent_page.lent(), &mut length);
    let (text, refusal) = match expected {
        Ok(page) => (page.as_str(), 0),
        Err(_) => ("", REFUSED),
    };
    held("the number", u64::from(number), u64::from(refusal))?;
    held("the length", length, text.len() as u64)?;
    let (page, after) = lent_page.content().split_at(text.len());
    if page != text.as_bytes() {
        return Err("the page is another".to_string());
    }
    if after.iter().any(|&byte| byte != BLANK) || !lent_page.margins_are_blank() {
        return Err("a byte after or before the page was written".to_string());
    }
    if lent_log.content() != log || !lent_log.margins_are_blank() {
        return Err("the log was written".to_string());
    }
    Ok(())
}

fn held(what: &str, given: u64, expected: u64) -> Result<(), String> {
    match given == expected {
        true => Ok(()),
        false => Err(format!("{what} is {given} and should be {expected}")),
    }
}

/// Shows a difference by the smallest log that was found to have one.
fn show(case: &Case, told: &str) {
    println!("page: a difference: {told}");
    let differs = |case: &Case| {
        let (room, page) = case.expected();
        check(&case.log(), room, 0, &page).is_err()
    };
    // Which alignment it takes is not looked for.
    if !differs(case) {
        println!("page: it depends on the alignment");
        return;
    }
    let smallest = shrink::smallest(case, differs);
    let (room, page) = smallest.expected();
    let told = check(&smallest.log(), room, 0, &page).expect_err("it differs");
    println!("\nit is shown by a log of the entries");
    for [code, value] in smallest.entries.iter().take(SHOWN) {
        println!("    0x{code:X}, 0x{value:08X}");
    }
    if smallest.entries.len() > SHOWN {
        println!("    and {} more", smallest.entries.len() - SHOWN);
    }
    if !smallest.rest.is_empty() {
        println!("and then the bytes {:?}", smallest.rest);
    }
    println!("in a room of {room} bytes: {told}");
    let mut lent = vec![BLANK; room];
    let mut length = u64::MAX;
    rattle::page(&smallest.log(), &mut lent, &mut length);
    lent.truncate(length.min(room as u64) as usize);
    let given = String::from_utf8_lossy(&lent);
    let expected = page.unwrap_or_else(|wrong| format!("refused: {}\n", wrong.words()));
    println!("\nexpected\n\n{expected}\ngiven\n\n{given}");
    difference::print(&expected, &given);
}

/// Prints the page of a file. False, with what is wrong on standard error, where it has none.
pub fn print_file(file: &str) -> io::Result<bool> {
    match print::page(&fs::read(file)?, usize::MAX) {
        Ok(page) => {
            print!("{page}");
            Ok(true)
        }
        Err(wrong) => {
            eprintln!("{file}: {}", wrong.words());
            Ok(false)
        }
    }
}

/// The page of accesses as a driver logged them.
pub fn of_accesses(log: &[[u32; 2]]) -> String {
    let page = print::page(rattle::bytes(log.as_flattened()), usize::MAX);
    page.expect("a driver accesses the nine registers")
}

#[cfg(test)]
mod tests {
    use super::print::{DOCUMENT_01, RULES};
    use super::*;
    use crate::rattle::{bytes, ENTRY};

    fn checked(words: &[u32], room: usize) -> Result<(), String> {
        let expected = print::page(bytes(words), room);
        (0..8).try_for_each(|shift| check(bytes(words), room, shift, &expected))
    }

    #[test]
    fn the_library_prints_what_document_02_says() {
        for room in [0, 1, 80, 81, 728, 729, 730, 890, 891, 1_000] {
            assert_eq!(checked(&DOCUMENT_01, room), Ok(()), "{room} bytes");
            assert_eq!(checked(&RULES, room), Ok(()), "{room} bytes");
            assert_eq!(checked(&RULES[..7], room), Ok(()), "{room} bytes");
            assert_eq!(checked(&[], room), Ok(()), "{room} bytes");
        }
    }

    #[test]
    fn every_register_with_every_bit() {
        for (name, log) in sample::files() {
            let page = print::page(&log, usize::MAX);
            let room = page.as_ref().map_or(0, String::len);
            assert_eq!(check(&log, room, 0, &page), Ok(()), "{name}");
        }
    }

    #[test]
    fn a_difference_is_found() {
        let log = bytes(&DOCUMENT_01);
        let page = print::page(log, usize::MAX).unwrap();
        assert_eq!(check(log, 729, 0, &Ok(page.clone())), Ok(()));
        let other = page.replacen("TXE", "TXF", 1);
        assert!(check(log, 729, 0, &Ok(other)).is_err());
        assert!(check(log, 729, 0, &Err(Wrong::NotWhole)).is_err());
        assert!(check(log, 728, 0, &Ok(page[..648].to_string())).is_err());
        assert!(check(&log[ENTRY..], 729, 0, &Ok(page)).is_err());
    }
}
