//! Logs that are larger than a random one comes to.

use super::print::{self, Wrong, COLUMNS};
use super::reached::Reached;
use super::{check, held, REFUSED};
use crate::rattle::{self, bytes, ENTRY};

/// The number of an entry has six digits.
const NUMBERS: usize = 1_000_000;

/// A log of over a million entries, whose numbers go on from 000000. Most of them take a line, those
/// where the numbers begin anew all the lines there are.
pub fn past_a_million(reached: &mut Reached) -> Result<(), String> {
    let mut entries = vec![[0x11C, 0]; NUMBERS + 3];
    entries[NUMBERS - 3..].copy_from_slice(&[
        [0x18, 0x21],
        [0x1C, u32::MAX],
        [0x104, 0x0202_20A0],
        [0x00, u32::MAX],
        [0x11C, 0],
        [0x128, 0x12],
    ]);
    let log = bytes(entries.as_flattened());
    let page = print::page(log, usize::MAX).map_err(Wrong::words)?;
    let room = page.len();
    reached.count_page(&entries, room, &page);
    let told = |told| format!("of a log of {} entries, {told}", entries.len());
    check(log, room, 0, &Ok(page)).map_err(told)?;
    check(log, room - 1, 0, &Err(Wrong::TooLong)).map_err(told)
}

/// A page whose length, as a word of 32 bits, would fit: 2^32 and a few bytes. Its log is one of
/// zeros, which takes no memory before it is written.
pub fn past_a_word() -> Result<(), String> {
    let entries = (1_usize << 32).div_ceil(COLUMNS + 1);
    let log = vec![0; entries * ENTRY];
    let mut page = [super::BLANK; 4_096];
    assert_eq!(print::page(&log, page.len()), Err(Wrong::TooLong));
    let mut length = u64::MAX;
    let number = rattle::page(&log, &mut page, &mut length);
    let told = |told| format!("of a log of {entries} entries, {told}");
    held("the number", number.into(), REFUSED.into()).map_err(told)?;
    held("the length", length, 0).map_err(told)?;
    match page == [super::BLANK; 4_096] {
        true => Ok(()),
        false => Err(told("a byte was written".to_string())),
    }
}
