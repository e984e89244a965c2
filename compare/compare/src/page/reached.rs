//! What was compared, counted.

use super::case::{Case, Room};
use super::print::{Wrong, COLUMNS};
use super::registers::{accessed, codes, REGISTERS};

/// The most lines of an entry.
const LINES: usize = 5;

#[derive(Default)]
pub struct Reached {
    pub logs: u64,
    entries: u64,
    accepted: u64,
    empty: u64,
    empty_room: u64,
    /// Pages that took all the room, and those that left some.
    exact: u64,
    spare: u64,
    odd: u64,
    part: u64,
    /// Codes of no register, by their place: in the only or first entry, the last, or another.
    first: u64,
    last: u64,
    between: u64,
    /// Pages that were too long, and those by a byte.
    too_long: u64,
    by_a_byte: u64,
    /// Logs with a wrong code or end whose page would have been too long too.
    both: u64,
    /// Entries by their lines.
    lines: [u64; LINES + 1],
    column_80: u64,
    wraps: u64,
    /// For each register, how often it was read and written on a page.
    accesses: [[u64; 2]; REGISTER_COUNT],
    /// For each register, the bits that were set in one of its values and those that were not.
    set: [u32; REGISTER_COUNT],
    clear: [u32; REGISTER_COUNT],
}

const REGISTER_COUNT: usize = 9;

impl Reached {
    /// A log whose page was compared, with the room that there was.
    pub fn count(&mut self, case: &Case, room: usize, page: &Result<String, Wrong>) {
        self.logs += 1;
        match page {
            Ok(page) => self.count_page(&case.entries, room, page),
            Err(Wrong::NotWhole) if case.is_odd() => self.odd += 1,
            Err(Wrong::NotWhole) => self.part += 1,
            Err(Wrong::NoRegister(1)) => self.first += 1,
            Err(Wrong::NoRegister(entry)) if *entry == case.entries.len() => self.last += 1,
            Err(Wrong::NoRegister(_)) => self.between += 1,
            Err(Wrong::TooLong) => {
                self.too_long += 1;
                let longer = Case {
                    room: Room::Bytes(room + 1),
                    ..case.clone()
                };
                self.by_a_byte += u64::from(longer.expected().1.is_ok());
            }
        }
        let wrong = matches!(page, Err(Wrong::NotWhole | Wrong::NoRegister(_)));
        let short = room < case.entries.len() * (COLUMNS + 1);
        self.both += u64::from(wrong && short);
    }

    /// The page of these entries.
    pub fn count_page(&mut self, entries: &[[u32; 2]], room: usize, page: &str) {
        self.accepted += 1;
        self.entries += entries.len() as u64;
        if entries.is_empty() {
            self.empty += 1;
            self.empty_room += u64::from(room == 0);
        } else if page.len() == room {
            self.exact += 1;
        } else {
            self.spare += 1;
        }
        self.wraps += u64::from(entries.len() >= 1_000_000);
        for &[code, value] in entries {
            let (access, register) = accessed(code).expect("a page has known codes");
            let place = REGISTERS.iter().position(|it| it.offset == register.offset);
            let place = place.expect("it is one of the nine");
            self.accesses[place][usize::from(access == "write")] += 1;
            self.set[place] |= value;
            self.clear[place] |= !value;
        }
        self.count_lines(page);
    }

    fn count_lines(&mut self, page: &str) {
        let mut lines = 0;
        for line in page.lines() {
            self.column_80 += u64::from(!line.ends_with(' '));
            if !line.starts_with(' ') {
                self.lines[lines] += 1;
                lines = 0;
            }
            lines += 1;
        }
        self.lines[lines] += 1;
    }

    fn counts(&self) -> [(&'static str, u64); 16] {
        [
            ("pages", self.accepted),
            ("of a log without an entry", self.empty),
            ("of one in no room", self.empty_room),
            ("that took all the room", self.exact),
            ("that left some", self.spare),
            ("refused: an odd number of words", self.odd),
            ("refused: a part of a word", self.part),
            ("refused: the code of the first entry", self.first),
            ("refused: the code of the last entry", self.last),
            ("refused: the code of another entry", self.between),
            ("refused: too long", self.too_long),
            ("refused: too long by a byte", self.by_a_byte),
            (
                "refused: one of the codes or the end, and too long",
                self.both,
            ),
            ("entries", self.entries),
            ("lines that end in column 80", self.column_80),
            ("pages past the number 999999", self.wraps),
        ]
    }

    pub fn print(&self) {
        for (what, count) in self.counts() {
            println!("{what}: {count}");
        }
        for (lines, count) in self.lines.iter().enumerate().skip(1) {
            println!("entries of {lines} lines: {count}");
        }
        for (register, [read, written]) in REGISTERS.iter().zip(self.accesses) {
            println!("{}: {read} read, {written} written", register.name);
        }
    }

    /// What no log had.
    pub fn missing(&self) -> Vec<String> {
        let counts = self.counts().into_iter().filter(|(_, count)| *count == 0);
        let mut missing: Vec<String> = counts.map(|(what, _)| what.to_string()).collect();
        let lines = (1..=LINES).filter(|&lines| self.lines[lines] == 0);
        missing.extend(lines.map(|lines| format!("an entry of {lines} lines")));
        let read = self.accesses.map(|[read, _]| read);
        let written = self.accesses.map(|[_, written]| written);
        let unseen = codes().zip([read, written].concat());
        let unseen = unseen.filter(|(_, count)| *count == 0);
        missing.extend(unseen.map(|(code, _)| format!("an entry with code 0x{code:X}")));
        for (place, register) in REGISTERS.iter().enumerate() {
            let unseen = !(self.set[place] & self.clear[place]);
            if unseen != 0 {
                let name = register.name;
                missing.push(format!("{name} with bits 0x{unseen:08X} set and clear"));
            }
        }
        missing
    }
}

#[cfg(test)]
mod tests {
    use super::*;

    fn counted(cases: &[Case]) -> Reached {
        let mut reached = Reached::default();
        for case in cases {
            let (room, page) = case.expected();
            reached.count(case, room, &page);
        }
        reached
    }

    #[test]
    fn each_kind_is_missed_until_it_was_there() {
        assert_eq!(Reached::default().missing().len(), 16 + 5 + 18 + 9);
        let case = |entries: &[[u32; 2]], rest: &[u8], room| Case {
            entries: entries.to_vec(),
            rest: rest.to_vec(),
            room,
        };
        let whole: Vec<[u32; 2]> = codes().flat_map(|code| [[code, 0], [code, !0]]).collect();
        let reached = counted(&[
            case(&whole, &[], Room::Spare(0)),
            case(&[[4, 0x06FF_33FF]], &[], Room::Spare(1)),
            case(&whole, &[], Room::Short(1)),
            case(&whole, &[], Room::Short(2)),
            case(&[], &[], Room::Bytes(0)),
            case(&[], &[1, 2, 3, 4], Room::Bytes(0)),
            case(&[], &[1, 2, 3], Room::Bytes(0)),
            case(&[[0x14, 0], [0, 0]], &[], Room::Bytes(0)),
            case(&[[0, 0], [0x14, 0]], &[], Room::Bytes(900)),
            case(&[[0, 0], [0x14, 0], [0, 0]], &[], Room::Bytes(900)),
        ]);
        assert_eq!((reached.too_long, reached.by_a_byte), (2, 1));
        assert_eq!((reached.first, reached.last, reached.between), (1, 1, 1));
        assert_eq!(reached.lines[5], 2, "ICR, read and written");
        assert_eq!(reached.missing(), ["pages past the number 999999"]);
    }
}
