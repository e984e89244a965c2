//! Registers whose accesses are kept.

use crate::boundary::Entry;
use crate::{page, Refusal, Registers};

/// Registers that keep a log of their accesses, in bytes that are lent for it: offset and value of
/// every access, in their order, so that a call leaves the log that document 01 has of it. The
/// accesses themselves are those of the registers within, whatever the log has room for.
///
/// It goes wherever [`Registers`] do. So a page of what a call did is printed on a service port:
///
/// ```
/// use huskerivory::{Address, Error, I2c, Logged, Registers};
///
/// /// Sends a card. What was read and written goes to the service port, by way of some bytes for
/// /// the page: `PAGE_ENTRY` of them for each place of the log are always enough.
/// fn send<R: Registers>(
///     i2c: &mut I2c<Logged<'_, R>>,
///     card: &mut [u8],
///     paper: &mut [u8],
///     port: &mut impl FnMut(&[u8]),
/// ) -> Result<(), Error> {
///     i2c.registers().clear();
///     let sent = i2c.write(Address::SevenBit(0x50), card);
///     if let Ok(length) = i2c.registers().page(paper) {
///         port(&paper[..length]);
///     }
///     sent
/// }
/// ```
#[derive(Debug)]
pub struct Logged<'a, R> {
    registers: R,
    log: &'a mut [u8],
    /// The bytes that have entries.
    kept: usize,
    missed: usize,
}

impl<'a, R> Logged<'a, R> {
    /// The same registers, with an empty log in these bytes: a place for every eight of them.
    pub fn new(registers: R, log: &'a mut [u8]) -> Self {
        Logged {
            registers,
            log,
            kept: 0,
            missed: 0,
        }
    }

    /// The accesses so far, as far as there was room for them.
    pub fn log(&self) -> &[u8] {
        self.log.get(..self.kept).unwrap_or(&[])
    }

    /// How many accesses found no place. Those that did are the first.
    pub fn missed(&self) -> usize {
        self.missed
    }

    /// Begins a new log, in the same bytes.
    pub fn clear(&mut self) {
        self.kept = 0;
        self.missed = 0;
    }

    /// Lays the log out and says how many bytes its page has, as [`page()`] does. It is refused where
    /// the page is too long, and where something else than the nine registers was accessed.
    pub fn page(&self, paper: &mut [u8]) -> Result<usize, Refusal> {
        page(self.log(), paper)
    }

    /// The registers again, and the bytes with the log.
    pub fn free(self) -> (R, &'a mut [u8]) {
        (self.registers, self.log)
    }

    fn keep(&mut self, entry: Entry) {
        let end = self.kept.saturating_add(Entry::LENGTH);
        match self.log.get_mut(self.kept..end) {
            Some(place) => {
                place.copy_from_slice(&entry.to_bytes());
                self.kept = end;
            }
            None => self.missed = self.missed.saturating_add(1),
        }
    }
}

impl<R: Registers> Registers for Logged<'_, R> {
    fn read(&mut self, offset: u32) -> u32 {
        let value = self.registers.read(offset);
        self.keep(Entry::read(offset, value));
        value
    }

    fn write(&mut self, offset: u32, value: u32) {
        self.registers.write(offset, value);
        self.keep(Entry::write(offset, value));
    }
}
