//! The list already cut, as document 02 has it: an operation goes out as pieces of 255 bytes
//! and a last piece of 1 to 255, and an empty one as one empty piece. The driver takes no longer
//! operation, so a list with one is given to it in this form.

use std::borrow::Cow;

/// The most bytes of a piece, which are the most that NBYTES holds.
const MOST: u32 = 255;

/// The pieces of a list, each written as an operation of its own: length in bits 0 to 15, bit 16
/// set for a read.
pub fn cut(operations: &[u32]) -> Cow<'_, [u32]> {
    let length = |operation: u32| operation & 0xFFFF;
    if operations.iter().all(|&it| length(it) <= MOST) {
        return Cow::Borrowed(operations);
    }
    let mut pieces = Vec::new();
    for &operation in operations {
        let rest = operation - length(operation);
        let mut left = length(operation);
        while left > MOST {
            pieces.push(rest | MOST);
            left -= MOST;
        }
        pieces.push(rest | left);
    }
    Cow::Owned(pieces)
}

#[cfg(test)]
mod tests {
    use super::*;

    const READ: u32 = 0x1_0000;

    #[test]
    fn no_piece_is_long_and_no_last_piece_is_empty() {
        assert_eq!(*cut(&[]), []);
        assert_eq!(*cut(&[0]), [0]);
        assert_eq!(*cut(&[255]), [255]);
        assert_eq!(*cut(&[256]), [255, 1]);
        assert_eq!(*cut(&[READ | 510]), [READ | 255, READ | 255]);
        assert_eq!(*cut(&[511]), [255, 255, 1]);
        assert_eq!(*cut(&[0xFFFF]), [255; 257]);
        let mixed = [0, READ | 256, READ, 257];
        assert_eq!(*cut(&mixed), [0, READ | 255, READ | 1, READ, 255, 2]);
    }

    #[test]
    fn every_length_is_the_sum_of_its_pieces() {
        for length in 1..=0xFFFF {
            let pieces = cut(&[length]).into_owned();
            assert_eq!(pieces.iter().sum::<u32>(), length);
            let (last, others) = pieces.split_last().unwrap();
            assert!(others.iter().all(|&piece| piece == 255));
            assert!((1..=255).contains(last), "{length}");
        }
    }

    #[test]
    fn the_most_pieces() {
        let mut empty = [0; 64];
        empty[40] = 0xFFFF;
        assert_eq!(cut(&empty).len(), 320);
        assert_eq!(cut(&[4 * 255 + 1; 64]).len(), 320);
    }
}
