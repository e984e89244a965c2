//! What comes of a call that did not fail.

/// What a target is told by the bus.
///
/// The address is unshifted. A ten-bit one is told where the own address has ten bits and the
/// controller called a ten-bit header; a call of a secondary address 0x78 to 0x7B looks the same
/// there, and is told as one of the own address.
#[derive(Clone, Copy, Debug, PartialEq, Eq)]
pub enum TargetEvent {
    /// The controller reads: the target is to write.
    Read {
        /// The address that the controller called.
        address: u16,
    },
    /// The controller writes: the target is to read.
    Write {
        /// The address that the controller called.
        address: u16,
    },
    /// A stop.
    Stop,
}

/// How a call ended well.
#[derive(Clone, Copy, Debug, PartialEq, Eq)]
pub enum Outcome {
    /// It is done, and a target's transfer counts so many bytes: those that came in, or those that
    /// were put out, less one. Other calls count 0.
    Done(u32),
    /// The event that was waited for.
    Event(TargetEvent),
}

impl Outcome {
    /// The bytes that a target's transfer counts.
    pub const fn count(self) -> usize {
        match self {
            Outcome::Done(count) => count as usize,
            Outcome::Event(_) => 0,
        }
    }
}
