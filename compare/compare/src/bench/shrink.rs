//! Finding a small file that still shows a difference.

use std::io;

use super::entry::{self, Entry};
use super::meaning;
use crate::calls::case::Case;
use crate::calls::shrink::changes;
use crate::shrink;

/// The smallest file, of those tried, that differs: by its words in their places, then by what its
/// calls mean, then by its words wherever they stand.
pub fn smallest(file: &[u8], differs: impl Fn(&[u8]) -> io::Result<bool>) -> io::Result<Vec<u8>> {
    let mut file = file.to_vec();
    if let Some((entries, rest)) = entry::split(&file) {
        let start = (entries, rest.to_vec());
        file = joined(&shrink::smallest(&start, less, |it| differs(&joined(it)))?);
    }
    if let Some(calls) = meaning::read(&file) {
        let calls = shrink::smallest(
            &calls,
            |calls, place| fewer(calls, place),
            |calls| differs(&meaning::write(calls)),
        )?;
        file = meaning::write(&calls);
    }
    shrink::smallest(
        &file,
        |file, place| shorter(file, place),
        |file| differs(file),
    )
}

/// A file as `entry::split` has it.
type Split = (Vec<Entry>, Vec<u8>);

fn joined((entries, rest): &Split) -> Vec<u8> {
    [entry::write(entries), rest.clone()].concat()
}

/// Nothing after the calls, a call less, or one of them with less in it.
fn less((entries, rest): &Split, mut place: usize) -> Option<Split> {
    let mut less = entries.clone();
    if place == 0 {
        return Some((less, Vec::new()));
    }
    place -= 1;
    if place < less.len() {
        less.remove(place);
        return Some((less, rest.clone()));
    }
    place -= less.len();
    for at in 0..less.len() {
        let changes = 1 + 2 * 3 + 2 * (less[at].size() - 4);
        if place < changes {
            lessen(&mut less[at], place);
            return Some((less, rest.clone()));
        }
        place -= changes;
    }
    None
}

fn lessen(entry: &mut Entry, change: usize) {
    let answers = 3 + 2 * entry.answers.len();
    match change.checked_sub(1) {
        None => entry.argument = 0,
        Some(change) if change < answers => lessen_words(&mut entry.answers, change),
        Some(change) => lessen_words(&mut entry.head, change - answers),
    }
}

/// None of the words, half of them, one less at the end or at a place, or a 0 at a place.
fn lessen_words(words: &mut Vec<u32>, change: usize) {
    let count = words.len();
    match change {
        0 => words.clear(),
        1 => words.truncate(count / 2),
        2 => drop(words.pop()),
        _ if change < 3 + count => drop(words.remove(change - 3)),
        _ => words[change - 3 - count] = 0,
    }
}

/// A call less, or one of them smaller.
fn fewer(calls: &[Case], mut place: usize) -> Option<Vec<Case>> {
    let mut fewer = calls.to_vec();
    if place < calls.len() {
        fewer.remove(place);
        return Some(fewer);
    }
    place -= calls.len();
    for case in &mut fewer {
        if let Some(change) = changes(case).nth(place) {
            *case = meaning::as_read(&change.made(case));
            return Some(fewer);
        }
        place -= changes(case).count();
    }
    None
}

/// Words less, or a word of 0.
fn shorter(file: &[u8], mut place: usize) -> Option<Vec<u8>> {
    let (mut words, rest) = entry::words(file);
    if place == 0 {
        return Some(file[..file.len() - rest.len()].to_vec());
    }
    place -= 1;
    for count in [4_096, 512, 64, 8, 1] {
        let places = words.len() / count;
        if place < places {
            words.drain(place * count..(place + 1) * count);
            return Some([entry::bytes(&words), rest.to_vec()].concat());
        }
        place -= places;
    }
    *words.get_mut(place)? = 0;
    Some([entry::bytes(&words), rest.to_vec()].concat())
}

#[cfg(test)]
mod tests {
    use super::*;
    use crate::calls::build::call;

    #[test]
    fn what_does_not_matter_goes() {
        let long = call(10).bytes(&[1, 2, 3]).answers(&[4, 0xFFFF_FFFF, 5]);
        let file = meaning::write(&[call(6), long, call(14).answers(&[7])]);
        let differs = |file: &[u8]| {
            let calls = meaning::read(file).unwrap_or_default();
            let differs = |case: &Case| case.asked.call == 10 && case.answers.contains(&5);
            Ok(calls.iter().any(differs))
        };
        let small = call(10).answers(&[5]);
        assert_eq!(smallest(&file, differs).unwrap(), meaning::write(&[small]));
    }

    #[test]
    fn a_file_that_is_refused() {
        let wide = Entry {
            number: 10,
            head: vec![1, 256, 3],
            ..Default::default()
        };
        let entries = [meaning::entry(&call(6).answers(&[1, 2])), wide];
        let file = [entry::write(&entries), vec![0; 3]].concat();
        let differs = |file: &[u8]| {
            let (entries, _) = entry::split(file).unwrap_or_default();
            Ok(entries.iter().any(|entry| entry.head.contains(&256)))
        };
        let small = Entry {
            head: vec![256],
            ..entries[1].clone()
        };
        let smallest = smallest(&file, differs).unwrap();
        assert_eq!(smallest[8..], entry::write(&[small])[8..]);
    }

    #[test]
    fn a_file_that_cannot_be_read() {
        let words: Vec<u32> = (3..700).collect();
        let file = [entry::bytes(&words), vec![1, 2]].concat();
        let differs = |file: &[u8]| Ok(entry::words(file).0.contains(&600));
        assert_eq!(smallest(&file, differs).unwrap(), entry::bytes(&[600]));
    }
}
