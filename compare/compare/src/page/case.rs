//! A log and the room for its page.

use super::print::{self, Wrong};
use crate::rattle::{bytes, ENTRY};

/// The most bytes that an entry takes on a page.
pub const MOST: usize = 5 * (print::COLUMNS + 1);

/// How many bytes are lent for a page.
#[derive(Clone, Copy, Debug, PartialEq, Eq)]
pub enum Room {
    /// So many more than it takes.
    Spare(usize),
    /// So many fewer.
    Short(usize),
    /// So many, whatever it takes.
    Bytes(usize),
}

#[derive(Clone, Debug, PartialEq, Eq)]
pub struct Case {
    /// Code and value of each entry.
    pub entries: Vec<[u32; 2]>,
    /// What stands after the last one and is none.
    pub rest: Vec<u8>,
    pub room: Room,
}

impl Case {
    pub fn log(&self) -> Vec<u8> {
        [bytes(self.entries.as_flattened()), &self.rest].concat()
    }

    /// The bytes that are lent, and the page or why there is none.
    pub fn expected(&self) -> (usize, Result<String, Wrong>) {
        let page = print::page(&self.log(), usize::MAX);
        let length = match &page {
            Ok(page) => page.len(),
            // There is no page: as many as it might have had.
            Err(_) => self.entries.len() * MOST,
        };
        let room = match self.room {
            Room::Spare(bytes) => length + bytes,
            Room::Short(bytes) => length.saturating_sub(bytes),
            Room::Bytes(bytes) => bytes,
        };
        let page = page.and_then(|page| match page.len() <= room {
            true => Ok(page),
            false => Err(Wrong::TooLong),
        });
        (room, page)
    }

    /// Whether a word is over, and not only a part of one.
    pub fn is_odd(&self) -> bool {
        self.rest.len() % ENTRY == 4
    }
}

#[cfg(test)]
mod tests {
    use super::*;

    #[test]
    fn rooms_go_by_the_page() {
        let case = |room| Case {
            entries: vec![[0x1C, 0], [0, 0]],
            rest: Vec::new(),
            room,
        };
        let given = |room| {
            let (room, page) = case(room).expected();
            (room, page.map(|page| page.len()))
        };
        assert_eq!(given(Room::Spare(0)), (162, Ok(162)));
        assert_eq!(given(Room::Spare(9)), (171, Ok(162)));
        assert_eq!(given(Room::Short(1)), (161, Err(Wrong::TooLong)));
        assert_eq!(given(Room::Short(500)), (0, Err(Wrong::TooLong)));
        assert_eq!(given(Room::Bytes(162)), (162, Ok(162)));
        let odd = Case {
            rest: vec![0; 4],
            ..case(Room::Spare(1))
        };
        assert!(odd.is_odd());
        assert_eq!(odd.expected(), (811, Err(Wrong::NotWhole)));
    }
}
