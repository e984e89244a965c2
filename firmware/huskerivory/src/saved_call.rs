//! A call between two advances.

use core::fmt;

/// How many words a saved call has: those that its `Debug` form names.
const WORDS: usize = 9;

/// Where a call stands, in bytes that can be stored and handed back to
/// [`Running::resume`](crate::Running::resume). Any bytes may be tried: those that are no saved
/// call of the described call are refused as 13.
///
/// A library of version 2 left 32 bytes, without the number of bytes put out. There is no way to
/// take such a call up: it is begun anew.
#[derive(Clone, Copy, PartialEq, Eq)]
pub struct SavedCall(pub(crate) [u8; SavedCall::LENGTH]);

impl SavedCall {
    /// The length of a saved call in bytes.
    pub const LENGTH: usize = 4 * WORDS;

    /// What a refused begin leaves; it is taken by no call.
    pub const NONE: SavedCall = SavedCall([0; SavedCall::LENGTH]);

    /// The saved call of these bytes.
    pub const fn from_bytes(bytes: [u8; SavedCall::LENGTH]) -> Self {
        SavedCall(bytes)
    }

    /// Its bytes, as `include/huskerivory.h` lists them.
    pub const fn to_bytes(self) -> [u8; SavedCall::LENGTH] {
        self.0
    }

    /// The register accesses that the call has made, held at 4,294,967,295.
    pub const fn accesses(&self) -> u32 {
        let [_call, _piece, _byte, _word, accesses, ..] = self.words();
        accesses
    }

    const fn words(&self) -> [u32; WORDS] {
        let mut words = [0; WORDS];
        let (bytes, _) = self.0.as_chunks();
        let mut i = 0;
        while i < bytes.len() {
            words[i] = u32::from_le_bytes(bytes[i]);
            i += 1;
        }
        words
    }
}

impl fmt::Debug for SavedCall {
    fn fmt(&self, f: &mut fmt::Formatter<'_>) -> fmt::Result {
        let [call, piece, byte, word, accesses, outcome, value, step, out] = self.words();
        f.debug_struct("SavedCall")
            .field("call", &call)
            .field("piece", &piece)
            .field("byte", &byte)
            .field("word", &word)
            .field("accesses", &accesses)
            .field("outcome", &outcome)
            .field("value", &value)
            .field("step", &step)
            .field("out", &out)
            .finish()
    }
}
