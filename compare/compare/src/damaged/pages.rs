//! Logs, of a driver or of nobody, and what a page of them may be.

use super::{held, kept, spoil};
use crate::page::generate;
use crate::page::print::COLUMNS;
use crate::page::registers::accessed;
use crate::page::{MOST, REFUSED};
use crate::random::Random;
use crate::rattle::{self, ENTRY};

/// The most entries: their page fits the memory that is lent.
const ENTRIES: u32 = 150;

/// What a page is asked of.
#[derive(Clone, Debug)]
pub struct Page {
    pub log: Vec<u8>,
    /// What stands where it is to be laid out.
    pub page: Vec<u8>,
}

/// How pages came out.
#[derive(Debug, Default)]
pub struct Pages {
    pages: u64,
    empty: u64,
    /// Logs with a part of an entry, with a code of no register, and those whose page had too little
    /// room.
    not_whole: u64,
    no_register: u64,
    too_long: u64,
}

impl Pages {
    pub fn all_reached(&self) -> bool {
        [
            self.pages,
            self.empty,
            self.not_whole,
            self.no_register,
            self.too_long,
        ]
        .iter()
        .all(|&count| count > 0)
    }
}

impl Page {
    /// Mostly entries with codes of registers; now and then any bytes. The room is as it comes, but
    /// mostly not far from what a page may take.
    pub fn any(random: &mut Random) -> Self {
        let count = random.pick(&[4, 4, 12, ENTRIES]);
        let count = random.up_to(count);
        let mut log = generate::undamaged(count, random).log();
        match random.up_to(7) {
            0 => log.fill_with(|| random.word() as u8),
            kind => spoil(&mut log, kind, random),
        }
        let entries = log.len() / ENTRY;
        let lines = entries * (COLUMNS + 1);
        let most = match random.up_to(4) {
            0 => 0,
            1 => lines,
            2 => random.up_to((2 * lines) as u32) as usize,
            3 => lines + random.up_to(400) as usize,
            _ => entries * MOST,
        };
        let mut page = vec![0; most];
        page.fill_with(|| random.word() as u8);
        Page { log, page }
    }

    /// Holds what was given for this to what may be.
    pub fn hold(
        &self,
        number: u32,
        length: u64,
        page: &[u8],
        pages: &mut Pages,
    ) -> Result<(), String> {
        let entries = self.log.len() / ENTRY;
        let whole = self.log.len().is_multiple_of(ENTRY);
        let codes = (0..entries).map(|entry| rattle::word(&self.log, 2 * entry));
        let known = codes.filter(|&code| accessed(code).is_some()).count() == entries;
        let lines = entries * (COLUMNS + 1);
        if number != 0 {
            held("a page's refusal", (number, length) == (REFUSED, 0))?;
            let short = self.page.len() < entries * MOST;
            held("a refused page", !whole || !known || short)?;
            match (whole, known) {
                (false, _) => pages.not_whole += 1,
                (true, false) => pages.no_register += 1,
                (true, true) => pages.too_long += 1,
            }
            return kept("the room of a refused page", page, &self.page);
        }
        held("an accepted log", whole && known)?;
        let room = self.page.len().min(entries * MOST);
        let right = (lines as u64..=room as u64).contains(&length);
        held("a page's length", right)?;
        let (laid, after) = page.split_at(length as usize);
        held("a page's lines", are_lines(laid))?;
        pages.pages += 1;
        pages.empty += u64::from(entries == 0);
        kept("what is after a page", after, &self.page[laid.len()..])
    }
}

/// Lines of 80 characters, and nothing after the last.
fn are_lines(bytes: &[u8]) -> bool {
    let is_line = |line: &[u8]| match line.split_last() {
        Some((b'\n', line)) => line.iter().all(|byte| (b' '..=b'~').contains(byte)),
        _ => false,
    };
    let mut lines = bytes.chunks_exact(COLUMNS + 1);
    lines.all(is_line) && lines.remainder().is_empty()
}

#[cfg(test)]
mod tests {
    use super::*;

    fn held(log: &[u32], number: u32, length: u64, before: &[u8], after: &[u8]) -> bool {
        let page = Page {
            log: rattle::bytes(log).to_vec(),
            page: before.to_vec(),
        };
        page.hold(number, length, after, &mut Pages::default())
            .is_ok()
    }

    #[test]
    fn what_a_page_may_be() {
        let line = [&[b' '; 80][..], b"\n"].concat();
        let (before, after) = ([7; 90], [&line[..], &[7; 9]].concat());
        assert!(held(&[0, 0], 0, 81, &before, &after));
        assert!(
            held(&[0, 0], 15, 0, &before, &before),
            "its page may be longer"
        );
        assert!(held(&[0x14, 0], 15, 0, &before, &before));
        assert!(held(&[0], 15, 0, &before, &before));
        assert!(held(&[], 0, 0, &before, &before));
    }

    #[test]
    fn what_it_may_not_be() {
        let line = [&[b' '; 80][..], b"\n"].concat();
        let (before, after) = ([7; 90], [&line[..], &[7; 9]].concat());
        assert!(!held(&[0, 0], 0, 80, &before, &after));
        assert!(!held(&[0, 0], 0, 81, &before, &before), "there is no line");
        assert!(!held(
            &[0, 0],
            0,
            81,
            &before,
            &[&line[..], &[7; 8], &[6]].concat()
        ));
        assert!(!held(&[0, 0], 15, 0, &before, &after));
        assert!(!held(&[0, 0], 15, 81, &before, &before));
        assert!(!held(&[0, 0], 13, 0, &before, &before));
        assert!(!held(&[0, 0], 15, 0, &[7; 405], &[7; 405]), "there is room");
        assert!(!held(&[0x14, 0], 0, 81, &before, &after));
        assert!(!held(&[0, 0, 0], 0, 81, &before, &after));
        assert!(!held(&[], 15, 0, &before, &before));
    }

    #[test]
    fn pages_of_all_kinds_are_asked_for() {
        let mut random = Random::new(1);
        let pages: Vec<Page> = (0..2_000).map(|_| Page::any(&mut random)).collect();
        let share = |is: &dyn Fn(&Page) -> bool| pages.iter().filter(|page| is(page)).count();
        assert!(share(&|it| it.log.is_empty()) > 50);
        assert!(share(&|it| it.log.len() % ENTRY != 0) > 50);
        assert!(share(&|it| it.page.is_empty()) > 50);
        assert!(share(&|it| it.page.len() >= it.log.len() / ENTRY * MOST) > 200);
        assert!(pages.iter().all(|it| it.page.len() <= super::super::MOST));
    }
}
