//! The pieces of a transaction, each with its place in the list.

use oracle::{cut, Access, Asked};

use super::build::READ;
use super::chip::{CR2, WRITTEN};

/// A run of bytes that has a CR2 word of its own.
#[derive(Clone, Copy, Debug, PartialEq, Eq)]
pub struct Piece {
    /// Where in the buffer it begins.
    pub start: usize,
    pub size: usize,
    pub reads: bool,
    /// It is not the first of its operation.
    pub later: bool,
}

/// The pieces of a list, in order.
pub fn of(operations: &[u32]) -> Vec<Piece> {
    let mut pieces = Vec::new();
    let mut start = 0;
    for operation in operations.chunks(1) {
        for (place, &word) in cut(operation).iter().enumerate() {
            let size = length(word);
            pieces.push(Piece {
                start,
                size,
                reads: word & READ != 0,
                later: place > 0,
            });
            start += size;
        }
    }
    pieces
}

/// The bytes of an operation or of a piece.
pub fn length(word: u32) -> usize {
    (word & 0xFFFF) as usize
}

/// The bytes of all operations.
pub fn sum(operations: &[u32]) -> usize {
    operations.iter().map(|&word| length(word)).sum()
}

/// Whether an operation takes more than a piece.
pub fn is_long(operation: u32) -> bool {
    length(operation) > 255
}

/// Whether a call is a transaction with an operation that takes more than a piece.
pub fn has_long(asked: &Asked) -> bool {
    asked.call == 7 && asked.operations.iter().any(|&it| is_long(it))
}

/// Whether an entry of a transaction is the CR2 word that a piece begins with.
pub fn is_control(entry: &Access) -> bool {
    entry[0] == WRITTEN + CR2
}

/// The entries of a log that begin a later piece of an operation.
pub fn later_controls(asked: &Asked, log: &[Access]) -> Vec<usize> {
    if !has_long(asked) {
        return Vec::new();
    }
    let controls = (0..log.len()).filter(|&place| is_control(&log[place]));
    let both = controls.zip(of(&asked.operations));
    both.filter_map(|(place, piece)| piece.later.then_some(place))
        .collect()
}

#[cfg(test)]
mod tests {
    use super::*;
    use crate::calls::build::transaction;
    use crate::calls::run::Run;

    #[test]
    fn pieces_follow_each_other() {
        let piece = |start, size, reads, later| Piece {
            start,
            size,
            reads,
            later,
        };
        let expected = [
            piece(0, 3, false, false),
            piece(3, 255, true, false),
            piece(258, 1, true, true),
            piece(259, 0, true, false),
            piece(259, 255, false, false),
        ];
        assert_eq!(of(&[3, READ | 256, READ, 255]), expected);
    }

    #[test]
    fn later_pieces_are_found_in_a_log() {
        let case = transaction(&[0, 256, 1]).zeros(257).goes_through();
        let log = Run::of(&case).log;
        let places = later_controls(&case.asked, &log);
        assert_eq!(places, [4 + 4 + 2 * 255]);
        assert_eq!(log[places[0]], [0x104, 0x0101_0000]);
    }
}
