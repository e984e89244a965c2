//! Finding a small log that still shows a difference.

use std::io;

use super::case::{Case, Room};
use crate::shrink;

/// The smallest, of those tried, that differs.
pub fn smallest(case: &Case, differs: impl Fn(&Case) -> bool) -> Case {
    let differs = |case: &Case| io::Result::Ok(differs(case));
    shrink::smallest(case, smaller, differs).expect("nothing is read or written")
}

/// Nothing after the entries, another room, entries less, a value of 0, a bit of a value less, or a
/// read in place of a write.
fn smaller(case: &Case, mut place: usize) -> Option<Case> {
    let mut smaller = case.clone();
    match place {
        0 => {
            smaller.rest.clear();
            return Some(smaller);
        }
        1 => {
            smaller.room = Room::Spare(0);
            return Some(smaller);
        }
        _ => place -= 2,
    }
    let count = case.entries.len();
    for block in [4_096, 512, 64, 8, 1] {
        let blocks = count / block;
        if place < blocks {
            smaller.entries.drain(place * block..(place + 1) * block);
            return Some(smaller);
        }
        place -= blocks;
    }
    let [code, value] = smaller.entries.get_mut(place % count.max(1))?;
    match place / count {
        0 => *value = 0,
        1 => *code &= !0x100,
        change @ 2..34 => *value &= !(1 << (change - 2)),
        _ => return None,
    }
    Some(smaller)
}

#[cfg(test)]
mod tests {
    use super::*;

    #[test]
    fn what_does_not_matter_goes() {
        let case = Case {
            entries: (0..700).map(|value| [0x128, value]).collect(),
            rest: vec![1, 2, 3],
            room: Room::Short(3),
        };
        let differs = |case: &Case| case.entries.iter().any(|[_, value]| value & 0x30 == 0x30);
        let expected = Case {
            entries: vec![[0x28, 0x30]],
            rest: Vec::new(),
            room: Room::Spare(0),
        };
        assert_eq!(smallest(&case, differs), expected);

        let differs = |case: &Case| case.entries.is_empty() && !case.rest.is_empty();
        let none = Case {
            entries: Vec::new(),
            ..case.clone()
        };
        assert_eq!(smallest(&none, differs).rest, [1, 2, 3]);
        assert_eq!(smallest(&none, differs).room, Room::Spare(0));
    }
}
