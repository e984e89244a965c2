//! The service page of a log, by document 02: written from that text and the register page,
//! and from nothing of the Rattle.

use std::iter;

use super::registers::{accessed, Register};
use crate::rattle::ENTRY;

/// A line's characters, before its LF.
pub const COLUMNS: usize = 80;

/// The columns before what a value holds: six of the number, five of the access, seven of the
/// register and eight of the value, each with a space after it.
const LEFT: usize = 6 + 1 + 5 + 1 + 7 + 1 + 8 + 1;

/// Why a log has no page: document 02's 15.
#[derive(Clone, Copy, Debug, PartialEq, Eq)]
pub enum Wrong {
    /// It does not end with an entry.
    NotWhole,
    /// The entry of this number, counted from 1, is of no register.
    NoRegister(usize),
    /// The page has more bytes than there is room for.
    TooLong,
}

impl Wrong {
    /// As the page program says it of a file.
    pub fn words(self) -> String {
        match self {
            Wrong::NotWhole => "its last entry is not whole".to_string(),
            Wrong::NoRegister(entry) => format!("entry {entry}: no register has its code"),
            Wrong::TooLong => "its page is too long".to_string(),
        }
    }
}

/// The page of a log, of so many bytes at most. What is wrong is found before a line is laid out,
/// but for the length, which nobody knows before.
pub fn page(log: &[u8], room: usize) -> Result<String, Wrong> {
    let entries = log.chunks_exact(ENTRY);
    if !entries.remainder().is_empty() {
        return Err(Wrong::NotWhole);
    }
    let entries = entries.map(|bytes| [word(&bytes[..4]), word(&bytes[4..])]);
    let unknown = entries
        .clone()
        .position(|[code, _]| accessed(code).is_none());
    if let Some(place) = unknown {
        return Err(Wrong::NoRegister(place + 1));
    }
    let mut page = String::new();
    for (place, [code, value]) in entries.enumerate() {
        lay(&mut page, place + 1, code, value);
        if page.len() > room {
            return Err(Wrong::TooLong);
        }
    }
    Ok(page)
}

/// Adds the lines of an entry, whose code is known.
fn lay(page: &mut String, number: usize, code: u32, value: u32) {
    let (access, register) = accessed(code).expect("every code was looked at");
    let number = number % 1_000_000;
    let name = register.name;
    let left = format!("{number:06} {access:<5} {name:<7} {value:08X}");
    let rows = wrapped(&held(register, value), COLUMNS - LEFT);
    let lefts = iter::once(left.as_str()).chain(iter::repeat(""));
    for (left, row) in lefts.zip(rows) {
        let line = format!("{left:LEFT$}{row}");
        page.push_str(&format!("{line:COLUMNS$}\n"));
    }
}

/// What a value holds, bit by bit from the top down. Only a field of one bit is left out where it is
/// 0.
fn held(register: &Register, value: u32) -> Vec<String> {
    let mut held = Vec::new();
    let mut field = Vec::new();
    for bit in (0..32).rev() {
        let set = value >> bit & 1;
        let name = register.bits[bit];
        if name.is_empty() {
            if set == 1 {
                held.push(format!("bit{bit}"));
            }
            continue;
        }
        field.push(set);
        if bit > 0 && register.bits[bit - 1] == name {
            continue;
        }
        match field.as_slice() {
            [0] => {}
            [_] => held.push(name.to_string()),
            bits => {
                let number = bits.iter().fold(0, |number, bit| 2 * number + bit);
                held.push(format!("{name}={number}"));
            }
        }
        field.clear();
    }
    held
}

/// Words a space apart, in rows of this width at most; a row without a word if there is none.
fn wrapped(words: &[String], width: usize) -> Vec<String> {
    let mut rows: Vec<Vec<&str>> = vec![Vec::new()];
    let mut left = width;
    for word in words {
        let row = rows.last_mut().expect("there is a row");
        let taken = word.len() + usize::from(!row.is_empty());
        if taken <= left {
            row.push(word);
            left -= taken;
        } else {
            rows.push(vec![word]);
            left = width - word.len();
        }
    }
    rows.iter().map(|row| row.join(" ")).collect()
}

fn word(bytes: &[u8]) -> u32 {
    bytes
        .iter()
        .rev()
        .fold(0, |word, &byte| word << 8 | u32::from(byte))
}

/// Document 01's run, as a log.
pub const DOCUMENT_01: [u32; 18] = [
    0x104,
    0x0202_20A0,
    0x18,
    1,
    0x04,
    0x0202_00A0,
    0x18,
    3,
    0x128,
    0x12,
    0x18,
    3,
    0x128,
    0x34,
    0x18,
    0x21,
    0x11C,
    0x20,
];

/// A log that shows each rule of a page once.
pub const RULES: [u32; 12] = [
    0,
    0xFFFF_FFFF,
    0x110,
    0x0F00_0000,
    4,
    0x06FF_33FF,
    4,
    0x06FF_17FF,
    0x11C,
    0,
    0x24,
    0x100,
];

#[cfg(test)]
mod tests {
    use super::super::registers::{codes, REGISTERS};
    use super::*;
    use crate::rattle::bytes;
    use std::collections::{BTreeMap, BTreeSet};

    /// The page of these words.
    fn laid(words: &[u32]) -> String {
        page(bytes(words), usize::MAX).unwrap()
    }

    /// A page of these lines, without the spaces at their ends.
    fn lines(page: &str) -> Vec<&str> {
        assert!(page.is_empty() || page.ends_with('\n'));
        for line in page.lines() {
            assert_eq!(line.len(), 80, "{line}");
            assert!(line.bytes().all(|byte| (b' '..=b'~').contains(&byte)));
        }
        assert_eq!(page.len(), 81 * page.lines().count());
        page.lines().map(str::trim_end).collect()
    }

    #[test]
    fn the_run_of_document_01() {
        let page = laid(&DOCUMENT_01);
        let expected = [
            "000001 write CR2     020220A0 AUTOEND NBYTES=2 START SADD=160",
            "000002 read  ISR     00000001 ADDCODE=0 TXE",
            "000003 read  CR2     020200A0 AUTOEND NBYTES=2 SADD=160",
            "000004 read  ISR     00000003 ADDCODE=0 TXIS TXE",
            "000005 write TXDR    00000012 TXDATA=18",
            "000006 read  ISR     00000003 ADDCODE=0 TXIS TXE",
            "000007 write TXDR    00000034 TXDATA=52",
            "000008 read  ISR     00000021 ADDCODE=0 STOPF TXE",
            "000009 write ICR     00000020 STOPCF",
        ];
        assert_eq!(lines(&page), expected);
        assert_eq!(page.len(), 729);
    }

    #[test]
    fn each_rule_once() {
        let page = laid(&RULES);
        let expected = [
            "000001 read  CR1     FFFFFFFF STOPFACLR ADDRACLR bit29 bit28 bit27 bit26 bit25",
            "                              FMP PECEN ALERTEN SMBDEN SMBHEN GCEN WUPEN",
            "                              NOSTRETCH SBC RXDMAEN TXDMAEN bit13 ANFOFF DNF=15",
            "                              ERRIE TCIE STOPIE NACKIE ADDRIE RXIE TXIE PE",
            "000002 write TIMINGR 0F000000 PRESC=0 bit27 bit26 bit25 bit24 SCLDEL=0 SDADEL=0",
            "                              SCLH=0 SCLL=0",
            "000003 read  CR2     06FF33FF PECBYTE AUTOEND NBYTES=255 START HEAD10R SADD=1023",
            "000004 read  CR2     06FF17FF PECBYTE AUTOEND NBYTES=255 HEAD10R RD_WRN",
            "                              SADD=1023",
            "000005 write ICR     00000000",
            "000006 read  RXDR    00000100 bit8 RXDATA=0",
        ];
        assert_eq!(lines(&page), expected);
        assert_eq!(page.len(), 891);
        // Column 80 is still on the line.
        assert_eq!(page.lines().nth(6).unwrap().trim_end().len(), 80);
    }

    #[test]
    fn an_empty_log_has_an_empty_page() {
        assert_eq!(page(&[], 0), Ok(String::new()));
    }

    #[test]
    fn a_register_that_holds_nothing() {
        assert_eq!(
            laid(&[0x11C, 0]),
            format!("{:80}\n", "000001 write ICR     00000000")
        );
        assert_eq!(
            lines(&laid(&[0x1C, 0x2000])),
            ["000001 read  ICR     00002000 ALERTCF"]
        );
    }

    #[test]
    fn fields_of_more_bits_are_always_there() {
        let zeros = |code| lines(&laid(&[code, 0])).concat().split_off(30);
        assert_eq!(zeros(0x00), "DNF=0");
        assert_eq!(zeros(0x04), "NBYTES=0 SADD=0");
        assert_eq!(zeros(0x08), "OA1=0");
        assert_eq!(zeros(0x0C), "OA2MSK=0 OA2=0");
        assert_eq!(zeros(0x10), "PRESC=0 SCLDEL=0 SDADEL=0 SCLH=0 SCLL=0");
        assert_eq!(zeros(0x18), "ADDCODE=0");
        assert_eq!(zeros(0x24), "RXDATA=0");
        assert_eq!(zeros(0x128), "TXDATA=0");
    }

    #[test]
    fn bits_of_no_field() {
        let shown = |code, value| lines(&laid(&[code, value])).concat().split_off(30);
        assert_eq!(shown(0x0C, 0x1), "OA2MSK=0 OA2=0 bit0");
        assert_eq!(shown(0x0C, 0x43), "OA2MSK=0 OA2=33 bit0");
        assert_eq!(shown(0x18, 0x8100_4000), "bit31 bit24 ADDCODE=0 bit14");
        assert_eq!(shown(0x1C, 0xC7), "bit7 bit6 bit2 bit1 bit0");
    }

    #[test]
    fn what_is_wrong_comes_first() {
        let rules = bytes(&RULES);
        for length in 0..rules.len() {
            let given = page(&rules[..length], usize::MAX);
            assert_eq!(given.is_err(), length % 8 != 0);
            assert!(given.is_ok() || given == Err(Wrong::NotWhole));
        }
        let wrong = [&RULES[..], &[0x14, 0]].concat();
        assert_eq!(page(bytes(&wrong), 0), Err(Wrong::NoRegister(7)));
        assert_eq!(page(bytes(&wrong[..13]), 0), Err(Wrong::NotWhole));
        assert_eq!(page(rules, 891).unwrap().len(), 891);
        assert_eq!(page(rules, 890), Err(Wrong::TooLong));
        assert_eq!(page(rules, 0), Err(Wrong::TooLong));
        assert_eq!(page(bytes(&DOCUMENT_01), 728), Err(Wrong::TooLong));
        let words = [Wrong::NotWhole, Wrong::NoRegister(7)].map(Wrong::words);
        assert_eq!(words[0], "its last entry is not whole");
        assert_eq!(words[1], "entry 7: no register has its code");
    }

    #[test]
    fn numbers_show_their_last_six_digits() {
        let mut text = String::new();
        for number in [1, 999_999, 1_000_000, 1_000_001, 123_456_789] {
            lay(&mut text, number, 0x1C, 0);
        }
        let numbers: Vec<&str> = lines(&text).iter().map(|line| &line[..6]).collect();
        assert_eq!(numbers, ["000001", "999999", "000000", "000001", "456789"]);
    }

    /// Of each field, and each bit of none, from the top down: the lengths that it may have on paper,
    /// `None` where it can be left out.
    fn lengths(register: &Register) -> Vec<Vec<Option<usize>>> {
        let runs = (0..32_usize).rev().collect::<Vec<_>>();
        let runs = runs.chunk_by(|&bit, &next| {
            let [name, other] = [bit, next].map(|bit| register.bits[bit]);
            !name.is_empty() && name == other
        });
        runs.map(|run| {
            let low = run[run.len() - 1];
            let name = match register.bits[low] {
                "" => format!("bit{low}"),
                name => name.to_string(),
            };
            let values = (0..1_u32 << run.len()).map(|number| held(register, number << low));
            let its = |word: &&String| word.split('=').next() == Some(&name);
            let shown = values.map(|words| words.iter().find(its).map(String::len));
            shown.collect::<BTreeSet<_>>().into_iter().collect()
        })
        .collect()
    }

    /// Of all values of a register, the most rows that one takes: for each column in which the rows may
    /// end so far, the most rows that do.
    fn most_rows(register: &Register) -> usize {
        let width = COLUMNS - LEFT;
        let mut rows = BTreeMap::from([(0, 1)]);
        for lengths in lengths(register) {
            let mut after = BTreeMap::new();
            for (&column, &reached) in &rows {
                for &length in &lengths {
                    let (column, reached) = match length {
                        None => (column, reached),
                        Some(length) if column == 0 => (length, reached),
                        Some(length) if column + 1 + length <= width => {
                            (column + 1 + length, reached)
                        }
                        Some(length) => (length, reached + 1),
                    };
                    let most = after.entry(column).or_insert(reached);
                    *most = reached.max(*most);
                }
            }
            rows = after;
        }
        rows.into_values().max().unwrap()
    }

    /// The header's HUSKERIVORY_PAGE_ENTRY.
    #[test]
    fn an_entry_takes_five_lines_at_most() {
        let most: Vec<usize> = REGISTERS.iter().map(most_rows).collect();
        assert_eq!(most.iter().max(), Some(&5));
        // ICR's takes them where all bits are set.
        assert_eq!(laid(&[0x1C, !0]).len(), 5 * 81);
        let reached = codes().map(|code| laid(&[code, !0]).len() / 81);
        assert!(reached
            .zip(most.iter().cycle())
            .all(|(rows, &most)| rows <= most));
    }
}
