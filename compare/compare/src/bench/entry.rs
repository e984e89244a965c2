//! A bench file, as far as its table of contents goes: calls of words that are not looked into.

/// How many bytes and how many calls a file has at most.
pub const BYTES: usize = 65_536;
pub const CALLS: usize = 64;

/// A call of a file.
#[derive(Clone, Debug, Default, PartialEq, Eq)]
pub struct Entry {
    pub number: u32,
    pub argument: u32,
    pub head: Vec<u32>,
    pub answers: Vec<u32>,
}

impl Entry {
    /// The words that the call takes in a file.
    pub fn size(&self) -> usize {
        4 + self.head.len() + self.answers.len()
    }
}

/// The calls of a file, unless it has too much or its lengths disagree.
pub fn read(file: &[u8]) -> Option<Vec<Entry>> {
    if file.len() > BYTES {
        return None;
    }
    let (entries, rest) = split(file)?;
    (entries.len() <= CALLS && rest.is_empty()).then_some(entries)
}

/// The calls that a file begins with, by its lengths alone, and what follows them.
pub fn split(file: &[u8]) -> Option<(Vec<Entry>, &[u8])> {
    let (words, _) = words(file);
    let (&count, words) = words.split_first()?;
    let (table, mut bodies) = words.split_at_checked(4 * count as usize)?;
    let mut entries = Vec::new();
    for row in table.chunks_exact(4) {
        entries.push(Entry {
            number: row[0],
            argument: row[1],
            head: take(&mut bodies, row[2])?,
            answers: take(&mut bodies, row[3])?,
        });
    }
    let rest = file.len() % 4 + 4 * bodies.len();
    Some((entries, &file[file.len() - rest..]))
}

/// The whole words of some bytes, and the bytes that are left.
pub fn words(bytes: &[u8]) -> (Vec<u32>, &[u8]) {
    let words = bytes.chunks_exact(4);
    let rest = words.remainder();
    let word = |bytes: &[u8]| u32::from_le_bytes([bytes[0], bytes[1], bytes[2], bytes[3]]);
    (words.map(word).collect(), rest)
}

/// So many words from the front.
fn take(words: &mut &[u32], count: u32) -> Option<Vec<u32>> {
    let (taken, rest) = words.split_at_checked(count as usize)?;
    *words = rest;
    Some(taken.to_vec())
}

/// The file of these calls, be they too many or not.
pub fn write(entries: &[Entry]) -> Vec<u8> {
    let mut words = vec![entries.len() as u32];
    for entry in entries {
        let lengths = [&entry.head, &entry.answers].map(|words| words.len() as u32);
        words.extend([entry.number, entry.argument, lengths[0], lengths[1]]);
    }
    for entry in entries {
        words.extend(&entry.head);
        words.extend(&entry.answers);
    }
    bytes(&words)
}

pub fn bytes(words: &[u32]) -> Vec<u8> {
    words.iter().flat_map(|word| word.to_le_bytes()).collect()
}

#[cfg(test)]
mod tests {
    use super::*;

    fn entry(number: u32, head: &[u32], answers: &[u32]) -> Entry {
        Entry {
            number,
            argument: 9,
            head: head.to_vec(),
            answers: answers.to_vec(),
        }
    }

    #[test]
    fn bodies_follow_the_table() {
        let entries = [entry(10, &[1, 2], &[3]), entry(6, &[], &[4, 5])];
        let words = [2, 10, 9, 2, 1, 6, 9, 0, 2, 1, 2, 3, 4, 5];
        assert_eq!(write(&entries), bytes(&words));
        assert_eq!(read(&bytes(&words)).unwrap(), entries);
        assert_eq!(read(&bytes(&[0])).unwrap(), []);
    }

    #[test]
    fn words_are_little_endian() {
        assert_eq!(bytes(&[0x0403_0201]), [1, 2, 3, 4]);
        let (words, rest) = words(&[1, 2, 3, 4, 5]);
        assert_eq!((words, rest), (vec![0x0403_0201], &[5][..]));
    }

    #[test]
    fn lengths_that_disagree() {
        let file = write(&[entry(10, &[1, 2], &[3]), entry(6, &[], &[4, 5])]);
        for end in 0..file.len() {
            assert_eq!(read(&file[..end]), None, "{end} bytes");
        }
        for added in 1..=8 {
            assert_eq!(read(&[&file[..], &vec![0; added]].concat()), None);
        }
        assert_eq!(split(&[&file[..], &[7; 5]].concat()).unwrap().1, [7; 5]);
        assert_eq!(read(&bytes(&[1, 6, 0, u32::MAX, 1])), None);
        assert_eq!(read(&bytes(&[1 << 30])), None);
    }

    #[test]
    fn the_limits() {
        let calls = |count| write(&vec![entry(6, &[], &[]); count]);
        assert_eq!(read(&calls(64)).unwrap().len(), 64);
        assert_eq!(read(&calls(65)), None);
        let answers = |count| write(&[entry(6, &[], &vec![0; count])]);
        assert_eq!(answers(16_379).len(), BYTES);
        assert!(read(&answers(16_379)).is_some());
        assert_eq!(read(&answers(16_380)), None);
    }
}
