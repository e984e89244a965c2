//! Finding something small that still shows a difference.

use std::io;

/// How many are tried at most.
const TRIES: usize = 3_000;

/// The smallest, of those tried, that differs. `smaller` gives the one at a place among all that
/// may be tried instead of another, that with much effect first, or none after the last.
pub fn smallest<T: Clone + PartialEq>(
    start: &T,
    smaller: impl Fn(&T, usize) -> Option<T>,
    differs: impl Fn(&T) -> io::Result<bool>,
) -> io::Result<T> {
    let mut smallest = start.clone();
    let mut tries = 0;
    loop {
        let before = smallest.clone();
        let mut place = 0;
        while let Some(candidate) = smaller(&smallest, place) {
            if candidate == smallest {
                place += 1;
                continue;
            }
            tries += 1;
            if tries > TRIES {
                return Ok(smallest);
            }
            if differs(&candidate)? {
                smallest = candidate;
            } else {
                place += 1;
            }
        }
        if smallest == before {
            return Ok(smallest);
        }
    }
}
