//! What the words of a call in a bench file mean, and the words of a call.

use oracle::Asked;

use super::entry::{self, Entry};
use crate::calls::build::READ;
use crate::calls::case::Case;

/// The bytes that are lent at most.
pub const LENT: usize = 65_536;

/// Ten bits, in the argument of a transaction.
pub const TEN_BIT: u32 = 0x1_0000;

/// No secondary address, or no mask.
const NONE: u32 = u32::MAX;

/// The calls of a file, or none where document 01 has refusal 14.
pub fn read(file: &[u8]) -> Option<Vec<Case>> {
    entry::read(file)?.iter().map(case).collect()
}

/// The file of these calls.
pub fn write(cases: &[Case]) -> Vec<u8> {
    let entries: Vec<Entry> = cases.iter().map(entry).collect();
    entry::write(&entries)
}

/// The number of the call as which this one is read: a manual one goes like its automatic form.
pub fn kind(number: u32) -> u32 {
    match number {
        24..=29 => number - 16,
        _ => number,
    }
}

/// The call that an entry means, unless a word of it must not be.
pub fn case(entry: &Entry) -> Option<Case> {
    let mut case = Case {
        answers: entry.answers.clone(),
        ..Default::default()
    };
    case.asked.call = entry.number;
    match kind(entry.number) {
        1..=3 => set_up(&mut case.asked, entry)?,
        4 | 5 => {
            nothing(&entry.head)?;
            case.asked.listen = entry.argument;
        }
        7 => transaction(&mut case, entry)?,
        9 | 11 => {
            nothing(&entry.head)?;
            case.buffer = vec![0; LENT.min(entry.argument as usize)];
        }
        10 | 12 => {
            zero(entry.argument)?;
            case.buffer = bytes(&entry.head)?;
        }
        _ => {
            zero(entry.argument)?;
            nothing(&entry.head)?;
        }
    }
    Some(case)
}

fn zero(argument: u32) -> Option<()> {
    (argument == 0).then_some(())
}

fn nothing(words: &[u32]) -> Option<()> {
    words.is_empty().then_some(())
}

/// A byte for each word.
fn bytes(words: &[u32]) -> Option<Vec<u8>> {
    words.iter().map(|&word| u8::try_from(word).ok()).collect()
}

/// Calls 1 to 3.
fn set_up(asked: &mut Asked, entry: &Entry) -> Option<()> {
    zero(entry.argument)?;
    let configuration = match (asked.call, entry.head.as_slice()) {
        (1, &[timingr]) => {
            asked.timingr = timingr;
            return Some(());
        }
        (1 | 2, [timingr, configuration @ ..]) => {
            asked.timingr = *timingr;
            configuration
        }
        (_, configuration) => configuration,
    };
    let &[own_address, mode @ 0..=1, secondary_address, mask] = configuration else {
        return None;
    };
    let some = |word| (word != NONE).then_some(word);
    asked.configured = true;
    asked.own_address = own_address;
    asked.own_ten_bit = mode == 1;
    asked.secondary_address = some(secondary_address);
    asked.mask = some(mask);
    Some(())
}

/// Call 7. The bytes of its reads are zeros.
fn transaction(case: &mut Case, entry: &Entry) -> Option<()> {
    if entry.argument >= 2 * TEN_BIT {
        return None;
    }
    case.asked.address = entry.argument % TEN_BIT;
    case.asked.ten_bit = entry.argument >= TEN_BIT;
    let (&count, words) = entry.head.split_first()?;
    let (operations, words) = words.split_at_checked(count as usize)?;
    case.asked.operations = operations.to_vec();
    let written = bytes(words)?;
    let mut written = written.as_slice();
    for &operation in operations {
        if is_read(operation) {
            case.buffer.resize(case.buffer.len() + length(operation), 0);
        } else {
            let (bytes, rest) = written.split_at_checked(length(operation))?;
            case.buffer.extend(bytes);
            written = rest;
        }
        case.buffer.truncate(LENT);
    }
    written.is_empty().then_some(())
}

fn is_read(operation: u32) -> bool {
    operation & READ != 0
}

fn length(operation: u32) -> usize {
    (operation & 0xFFFF) as usize
}

/// The entry of a call, as far as an entry can have it: only the call's own words, and a buffer of
/// the length and with the bytes that a file gives.
pub fn entry(case: &Case) -> Entry {
    let asked = &case.asked;
    let mut argument = 0;
    let mut head = Vec::new();
    match kind(asked.call) {
        1 if !asked.configured => head.push(asked.timingr),
        1 | 2 => {
            head.push(asked.timingr);
            head.extend(configuration(asked));
        }
        3 => head.extend(configuration(asked)),
        4 | 5 => argument = asked.listen,
        7 => {
            argument = asked.address % TEN_BIT + if asked.ten_bit { TEN_BIT } else { 0 };
            head = transaction_head(case);
        }
        9 | 11 => argument = case.buffer.len() as u32,
        10 | 12 => head.extend(case.buffer.iter().map(|&byte| u32::from(byte))),
        _ => {}
    }
    Entry {
        number: asked.call,
        argument,
        head,
        answers: case.answers.clone(),
    }
}

fn configuration(asked: &Asked) -> [u32; 4] {
    [
        asked.own_address,
        u32::from(asked.own_ten_bit),
        asked.secondary_address.unwrap_or(NONE),
        asked.mask.unwrap_or(NONE),
    ]
}

fn transaction_head(case: &Case) -> Vec<u32> {
    let operations = &case.asked.operations;
    let mut head = vec![operations.len() as u32];
    head.extend(operations);
    let mut buffer = case.buffer.iter().map(|&byte| u32::from(byte));
    for &operation in operations {
        let bytes = buffer.by_ref().chain(std::iter::repeat(0));
        let bytes: Vec<u32> = bytes.take(length(operation)).collect();
        if !is_read(operation) {
            head.extend(bytes);
        }
    }
    head
}

/// The call as it comes back from a file.
pub fn as_read(described: &Case) -> Case {
    case(&entry(described)).expect("the entry of a call is right")
}

#[cfg(test)]
mod tests {
    use super::*;
    use crate::calls::generate;
    use crate::random::Random;

    /// An entry without answers.
    fn of(number: u32, argument: u32, head: &[u32]) -> Option<Case> {
        case(&Entry {
            number,
            argument,
            head: head.to_vec(),
            answers: vec![],
        })
    }

    #[test]
    fn reading_what_was_written_gives_it_back() {
        let mut random = Random::new(5);
        for _ in 0..500 {
            let calls: Vec<Case> = (0..random.up_to(3))
                .map(|_| as_read(&generate::case(&mut random)))
                .collect();
            let file = write(&calls);
            if file.len() <= entry::BYTES {
                assert_eq!(read(&file).unwrap(), calls);
            }
        }
    }

    #[test]
    fn heads_of_the_wrong_length() {
        let lengths = |number: u32, argument| {
            let taken = move |&count: &usize| of(number, argument, &vec![0; count]).is_some();
            (0..9).filter(taken).collect::<Vec<usize>>()
        };
        assert_eq!(lengths(1, 0), [1, 5]);
        assert_eq!(lengths(2, 0), [5]);
        assert_eq!(lengths(3, 0), [4]);
        assert_eq!(lengths(7, 0), [1]);
        for number in [10, 12, 26, 28] {
            assert_eq!(lengths(number, 0), [0, 1, 2, 3, 4, 5, 6, 7, 8]);
        }
        let bare = [0, 4, 5, 6, 8, 9, 11, 13, 14, 15, 16, 23, 24, 25, 27, 29];
        for number in bare.into_iter().chain([30, 31, 32, 0x107, u32::MAX]) {
            assert_eq!(lengths(number, 0), [0], "call {number}");
        }
    }

    #[test]
    fn the_head_of_a_transaction() {
        assert!(of(7, 0, &[1, 2, 0, 255]).is_some());
        assert!(of(7, 0, &[1, 2, 0]).is_none());
        assert!(of(7, 0, &[1, 2, 0, 0, 0]).is_none());
        assert!(of(7, 0, &[1, 2, 0, 256]).is_none());
        assert!(of(7, 0, &[2, 0]).is_none());
        assert!(of(7, 0, &[u32::MAX]).is_none());
        assert!(of(7, 0, &[2, 0xFFFF, 0xFFFF]).is_none());
        // Only bit 16 has a say in where bytes are, and they lie in order.
        let case = of(7, 0, &[3, 0xFFFE_0001, 0x3_0002, 1, 8, 9]).unwrap();
        assert_eq!(case.buffer, [8, 0, 0, 9]);
        assert_eq!(case.asked.operations, [0xFFFE_0001, 0x3_0002, 1]);
        let case = of(7, 0, &[0]).unwrap();
        assert!(case.asked.operations.is_empty() && case.buffer.is_empty());
        let case = of(7, 0, &[&[66][..], &[0; 66]].concat()).unwrap();
        assert_eq!(case.asked.operations.len(), 66);
    }

    #[test]
    fn lent_buffers_are_cut() {
        let lent = |number, argument| of(number, argument, &[]).unwrap().buffer;
        for number in [9, 11, 25, 27] {
            assert_eq!(lent(number, 0), []);
            assert_eq!(lent(number, 65_535), vec![0; 65_535]);
            assert_eq!(lent(number, 65_537), vec![0; LENT]);
            assert_eq!(lent(number, u32::MAX), vec![0; LENT]);
        }
        let read = |lengths: &[u32]| {
            let operations = lengths.iter().map(|length| READ | length);
            let head: Vec<u32> = [lengths.len() as u32]
                .into_iter()
                .chain(operations)
                .collect();
            of(7, 0, &head).unwrap().buffer.len()
        };
        assert_eq!(read(&[65_535, 1]), LENT);
        assert_eq!(read(&[65_535, 65_535, 65_535]), LENT);
    }

    #[test]
    fn arguments() {
        let asked = |argument| of(7, argument, &[0]).unwrap().asked;
        assert_eq!((asked(0x50).address, asked(0x50).ten_bit), (0x50, false));
        assert_eq!(asked(65_535).address, 65_535);
        let most = asked(131_071);
        assert_eq!((most.address, most.ten_bit), (65_535, true));
        assert!(of(7, 131_072, &[0]).is_none());
        assert_eq!(of(4, u32::MAX, &[]).unwrap().asked.listen, u32::MAX);
        for (number, words) in [(1, 1), (2, 5), (3, 4), (10, 1), (12, 0), (26, 1), (28, 0)] {
            assert!(of(number, 1, &vec![0; words]).is_none(), "call {number}");
        }
        for number in [0, 6, 8, 13, 14, 15, 16, 23, 24, 29, 30, u32::MAX] {
            assert!(of(number, 1, &[]).is_none(), "call {number}");
        }
    }

    #[test]
    fn configurations() {
        let words = [0x42, 1, NONE, 2];
        let asked = of(3, 0, &words).unwrap().asked;
        assert_eq!((asked.own_address, asked.own_ten_bit), (0x42, true));
        assert_eq!((asked.secondary_address, asked.mask), (None, Some(2)));
        for (number, before) in [(1, 1), (2, 1), (3, 0)] {
            let head = |mode| [&vec![7; before][..], &[0x42, mode, 0, 0]].concat();
            assert!(of(number, 0, &head(1)).is_some());
            for mode in [2, 0x100, u32::MAX] {
                assert!(of(number, 0, &head(mode)).is_none());
            }
        }
    }

    #[test]
    fn bytes_above_255() {
        for number in [10, 12, 26, 28] {
            assert_eq!(of(number, 0, &[1, 255]).unwrap().buffer, [1, 255]);
            for word in [256, 0x8000_0000, u32::MAX] {
                assert!(of(number, 0, &[1, word]).is_none());
            }
        }
    }
}
