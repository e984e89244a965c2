//! What can go wrong.

use core::fmt;

/// Why a call failed.
#[derive(Clone, Copy, Debug, PartialEq, Eq)]
pub enum Error {
    /// A misplaced start or stop on the bus.
    Bus,
    /// Another controller won the bus.
    ArbitrationLoss,
    /// The address or a byte was not acknowledged.
    NoAcknowledge,
    /// A stop or a new start came before the end.
    Stopped,
    /// The controller writes, and the target was to do something else than read.
    ExpectedRead,
    /// The controller reads, and the target was to do something else than write.
    ExpectedWrite,
    /// The call cannot be made. No register was touched and no byte changed.
    Refused(Refusal),
}

/// Document 01's number of a refusal, document 02's 15, 16 or 17, or [`Refusal::LIBRARY`]. 9 is out
/// of use.
#[derive(Clone, Copy, Debug, PartialEq, Eq)]
pub struct Refusal(pub u32);

impl Refusal {
    /// The library that is linked is not the one that this crate was written for. Nothing was done,
    /// and no other call will do anything.
    pub const LIBRARY: Refusal = Refusal(0);

    /// There is no byte to move where there has to be one, or there are more than 65,535.
    pub const BUFFER: Refusal = Refusal(11);

    /// A log is no whole number of entries or has a code of no register, or its page is longer than
    /// the lent bytes.
    pub const PAGE: Refusal = Refusal(15);

    /// A board's speed bands are not 1 to 16 rows, their upper frequencies do not rise, a `d` is not
    /// 8 to 256 or a divisor is 0.
    pub const BAD_BANDS: Refusal = Refusal(16);

    /// A bus frequency is above the last of a board's speed bands.
    pub const NO_BAND: Refusal = Refusal(17);

    /// Its words in document 01, or, from 15 on, what it is about.
    pub const fn words(self) -> &'static str {
        match self.0 {
            0 => "another library",
            1 => "no speed",
            2 => "clock over",
            3 => "ratio",
            4 => "clock slow",
            5 => "speed low",
            6 => "no setup",
            7 => "field wide",
            8 => "address",
            10 => "list",
            11 => "buffer",
            12 => "no such call",
            13 => "saved call",
            15 => "page",
            16 => "bad bands",
            17 => "no band",
            _ => "unknown",
        }
    }
}

impl fmt::Display for Refusal {
    fn fmt(&self, f: &mut fmt::Formatter<'_>) -> fmt::Result {
        write!(f, "refused {} {}", self.0, self.words())
    }
}

impl From<Refusal> for Error {
    fn from(refusal: Refusal) -> Self {
        Error::Refused(refusal)
    }
}

/// The kinds of errors of `embedded_hal::i2c`, under its names. This crate has no dependencies;
/// firmware that has embedded-hal wraps [`Error`] and names the kind:
///
/// ```text
/// impl embedded_hal::i2c::Error for BusError {
///     fn kind(&self) -> embedded_hal::i2c::ErrorKind { kind_of(self.0.kind()) }
/// }
/// ```
///
/// `tests/embedded_hal.rs` has this in full, with the trait `I2c`.
#[derive(Clone, Copy, Debug, PartialEq, Eq)]
pub enum ErrorKind {
    /// A misplaced start or stop on the bus.
    Bus,
    /// Another controller won the bus.
    ArbitrationLoss,
    /// The address or a byte was not acknowledged.
    NoAcknowledge(NoAcknowledgeSource),
    /// Anything else.
    Other,
}

/// What was not acknowledged. The peripheral does not tell.
#[derive(Clone, Copy, Debug, PartialEq, Eq)]
pub enum NoAcknowledgeSource {
    /// The address or a byte.
    Unknown,
}

impl Error {
    /// The kind of error in embedded-hal's terms.
    pub const fn kind(&self) -> ErrorKind {
        match self {
            Error::Bus => ErrorKind::Bus,
            Error::ArbitrationLoss => ErrorKind::ArbitrationLoss,
            Error::NoAcknowledge => ErrorKind::NoAcknowledge(NoAcknowledgeSource::Unknown),
            Error::Stopped | Error::ExpectedRead | Error::ExpectedWrite | Error::Refused(_) => {
                ErrorKind::Other
            }
        }
    }
}

impl fmt::Display for Error {
    fn fmt(&self, f: &mut fmt::Formatter<'_>) -> fmt::Result {
        f.write_str(match self {
            Error::Bus => "bus",
            Error::ArbitrationLoss => "arbitration",
            Error::NoAcknowledge => "nack",
            Error::Stopped => "stopped",
            Error::ExpectedRead => "expected-read",
            Error::ExpectedWrite => "expected-write",
            Error::Refused(refusal) => return refusal.fmt(f),
        })
    }
}

impl core::error::Error for Error {}
impl core::error::Error for Refusal {}
