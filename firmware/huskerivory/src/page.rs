//! The service page of a log.

use crate::{boundary, Refusal};

/// The bytes of a page's line: 80 characters and LF.
pub const PAGE_LINE: usize = 81;

/// The bytes that an entry of a log takes on a page at most: five lines.
pub const PAGE_ENTRY: usize = 5 * PAGE_LINE;

/// Lays a log out for paper of 80 columns and says how many bytes its page has. The page stands at
/// the start of `page`; every byte after it stays as it was.
///
/// An entry has its number, `read` or `write`, the register and the value in hexadecimal; from
/// column 31 on the fields of one bit that are set, by their names, all other fields with their
/// numbers, and `bit` with a number for each set bit of no field, from the top bit down. What would
/// pass column 80 goes on in column 31 of a new line. Every line has 80 characters, spaces at its
/// end, and then LF. Two logs with the same page are the same log. `include/huskerivory.h` says it
/// in full.
///
/// A log is what [`Logged`](crate::Logged) keeps, eight bytes to an entry. [`PAGE_ENTRY`] bytes for
/// each entry are always enough. It is refused as [`Refusal::PAGE`], and no byte is changed, if the
/// log does not end with a whole entry or has a code of no register, or if the page is longer than
/// `page`.
///
/// ```
/// use huskerivory::{page, Refusal, PAGE_LINE};
///
/// # fn main() -> Result<(), Refusal> {
/// // CR2 was written.
/// let log = [0x04, 0x01, 0, 0, 0xA0, 0x20, 0x02, 0x02];
/// let mut paper = [0; 2 * PAGE_LINE];
/// let length = page(&log, &mut paper)?;
/// assert_eq!(
///     paper[..length].trim_ascii_end(),
///     b"000001 write CR2     020220A0 AUTOEND NBYTES=2 START SADD=160"
/// );
/// assert_eq!(paper[length - 1], b'\n');
///
/// assert_eq!(page(&log, &mut paper[..PAGE_LINE - 1]), Err(Refusal::PAGE));
/// assert_eq!(page(&log[..4], &mut paper), Err(Refusal::PAGE));
/// # Ok(())
/// # }
/// ```
pub fn page(log: &[u8], page: &mut [u8]) -> Result<usize, Refusal> {
    boundary::page(log, page)
}
