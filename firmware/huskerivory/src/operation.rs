//! The operations of a transaction.

/// One part of a transaction: so many bytes of the buffer go out, or come in. The bytes of all
/// operations stand in one buffer, one after the other. Those of one operation, and of neighbours
/// that go the same way, are one transfer on the bus, which the driver makes in pieces of 255 bytes.
/// It is document 01's word, kept in the bytes that the library reads.
#[repr(transparent)]
#[derive(Clone, Copy, Debug, PartialEq, Eq)]
pub struct Operation([u8; 4]);

impl Operation {
    const READ: u32 = 0x1_0000;

    /// So many bytes come in.
    pub const fn read(length: u16) -> Self {
        Self::from_word(Self::READ | length as u32)
    }

    /// So many bytes go out.
    pub const fn write(length: u16) -> Self {
        Self::from_word(length as u32)
    }

    /// The operation of a word. Any word is one; what is wrong with it is refused.
    pub const fn from_word(word: u32) -> Self {
        Operation(word.to_le_bytes())
    }

    /// The word: the length in bits 0 to 15, bit 16 for a read.
    pub const fn to_word(self) -> u32 {
        u32::from_le_bytes(self.0)
    }
}
