//! Memory to lend, in which every byte that may not be written holds a pattern.

/// What a byte holds that nothing was written to.
pub const BLANK: u8 = 0xB1;

/// How many bytes around what is lent are looked at.
const MARGIN: usize = 16;

/// Bytes to lend between blank margins, at any alignment.
#[derive(Default)]
pub struct Room {
    bytes: Vec<u8>,
    from: usize,
    to: usize,
}

impl Room {
    /// Holds these, `shift` bytes after an aligned place.
    pub fn hold(&mut self, content: &[u8], shift: usize) {
        self.bytes.clear();
        self.from = MARGIN + shift;
        self.to = self.from + content.len();
        self.bytes.resize(self.from, BLANK);
        self.bytes.extend_from_slice(content);
        self.bytes.resize(self.to + MARGIN, BLANK);
    }

    pub fn lent(&mut self) -> &mut [u8] {
        &mut self.bytes[self.from..self.to]
    }

    pub fn content(&self) -> &[u8] {
        &self.bytes[self.from..self.to]
    }

    pub fn margins_are_blank(&self) -> bool {
        is_blank(&self.bytes[..self.from]) && is_blank(&self.bytes[self.to..])
    }
}

/// A log that is blank all over whenever it is lent.
#[derive(Default)]
pub struct Log {
    bytes: Vec<u8>,
    from: usize,
    to: usize,
}

impl Log {
    /// So many bytes, `shift` bytes after an aligned place.
    pub fn lend(&mut self, length: usize, shift: usize) -> &mut [u8] {
        self.from = MARGIN + shift;
        self.to = self.from + length;
        if self.bytes.len() < self.to + MARGIN {
            self.bytes.resize(self.to + MARGIN, BLANK);
        }
        &mut self.bytes[self.from..self.to]
    }

    /// What was written, so many bytes from the first on, if that is all.
    pub fn written(&self, length: usize) -> Option<&[u8]> {
        let end = self.from + length;
        let alone = end <= self.to
            && is_blank(&self.bytes[..self.from])
            && is_blank(&self.bytes[end..self.to + MARGIN]);
        alone.then(|| &self.bytes[self.from..end])
    }

    /// Makes so many bytes blank again.
    pub fn clear(&mut self, length: usize) {
        self.bytes[self.from..self.from + length].fill(BLANK);
    }
}

pub fn is_blank(bytes: &[u8]) -> bool {
    const BLANKS: [u8; 256] = [BLANK; 256];
    bytes
        .chunks(BLANKS.len())
        .all(|part| part == &BLANKS[..part.len()])
}

#[cfg(test)]
mod tests {
    use super::*;

    #[test]
    fn a_byte_beside_what_is_lent_is_seen() {
        let mut room = Room::default();
        room.hold(&[1, 2, 3], 1);
        assert_eq!(room.lent(), [1, 2, 3]);
        assert!(room.margins_are_blank());
        room.bytes[room.to] = 0;
        assert!(!room.margins_are_blank());
    }

    #[test]
    fn a_byte_after_what_was_written_is_seen() {
        let mut log = Log::default();
        log.lend(24, 3)[..8].fill(7);
        assert_eq!(log.written(8), Some(&[7; 8][..]));
        assert_eq!(log.written(0), None);
        log.clear(8);
        assert_eq!(log.written(0), Some(&[][..]));
        log.lend(1_000, 0)[999] = 7;
        assert_eq!(log.written(992), None);
    }
}
