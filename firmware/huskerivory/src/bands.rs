//! A board's own speed bands.

use crate::{boundary, RawTimingr, Refusal};

/// How SCLH and SCLL share a period of the bus clock.
#[derive(Clone, Copy, Debug, PartialEq, Eq)]
pub enum Shape {
    /// High and low are equally long. A prescaler over 16 is held at 16.
    Equal,
    /// Low is twice as long as high. A prescaler over 16 is refused.
    Double,
}

impl Shape {
    const fn to_word(self) -> u32 {
        match self {
            Shape::Equal => 0,
            Shape::Double => 1,
        }
    }
}

/// A row of a board's speed bands: what holds for bus frequencies up to its upper one and above
/// that of the row before. `include/huskerivory.h` has the rule by which a timing follows from it.
#[derive(Clone, Copy, Debug, PartialEq, Eq)]
pub struct Band {
    /// The highest bus frequency of the row, in hertz. It rises from row to row.
    pub upper: u32,
    /// The least kernel clock, in hertz.
    pub least_clock: u32,
    /// What the prescaler goes by, 8 to 256.
    pub d: u32,
    /// The divisor of the clock for the data hold time, not 0.
    pub sdadel: u32,
    /// The divisor of the clock for the data setup time, not 0.
    pub scldel: u32,
    /// How the period is shared.
    pub shape: Shape,
}

impl Band {
    const BLANK: [u8; 24] = [0; 24];

    /// The bytes of a row.
    const LENGTH: usize = Band::BLANK.len();

    /// The row as the library reads it.
    fn to_bytes(self) -> [u8; Band::LENGTH] {
        let words = [
            self.upper,
            self.least_clock,
            self.d,
            self.sdadel,
            self.scldel,
            self.shape.to_word(),
        ];
        let mut bytes = Band::BLANK;
        for (place, word) in bytes.chunks_exact_mut(4).zip(words) {
            place.copy_from_slice(&word.to_le_bytes());
        }
        bytes
    }
}

/// The bytes of a table, loaded or not. It has room for one row more than the library accepts, so
/// that a table that is too long is lent as one, and it is the library that refuses it.
#[derive(Clone, Debug, PartialEq, Eq)]
struct Table {
    rows: [[u8; Band::LENGTH]; Bands::MOST + 1],
    count: usize,
}

impl Table {
    /// The first rows, as many as there is room for.
    fn of(bands: &[Band]) -> Self {
        let mut rows = [Band::BLANK; Bands::MOST + 1];
        for (place, band) in rows.iter_mut().zip(bands) {
            *place = band.to_bytes();
        }
        Table {
            rows,
            count: bands.len().min(Bands::MOST + 1),
        }
    }

    fn bytes(&self) -> &[u8] {
        self.rows.get(..self.count).unwrap_or(&[]).as_flattened()
    }
}

/// A board's speed bands that the library has accepted. The library keeps nothing of them: they are
/// kept here, and lent to it for each timing.
///
/// ```
/// use huskerivory::{Band, Bands, RawTimingr, Refusal, Shape};
///
/// # fn main() -> Result<(), Refusal> {
/// let slow = Band {
///     upper: 50_000,
///     least_clock: 1_000_000,
///     d: 32,
///     sdadel: 1_000_000,
///     scldel: 250_000,
///     shape: Shape::Equal,
/// };
/// let bands = Bands::load(&[slow])?;
/// assert_eq!(bands.timing(8_000_000, 50_000), Ok(RawTimingr(0x4051_0F0F)));
/// assert_eq!(bands.timing(8_000_000, 50_001), Err(Refusal::NO_BAND));
///
/// // The upper frequencies have to rise.
/// assert_eq!(Bands::load(&[slow, slow]), Err(Refusal::BAD_BANDS));
/// # Ok(())
/// # }
/// ```
#[derive(Clone, Debug, PartialEq, Eq)]
pub struct Bands(Table);

impl Bands {
    /// The rows of a table, at most.
    pub const MOST: usize = 16;

    /// Has the library look at a table, and keeps it if it is accepted: if it has 1 to
    /// [`Bands::MOST`] rows, the upper frequencies strictly rise, each `d` is 8 to 256 and no
    /// divisor is 0. Every other one is refused as [`Refusal::BAD_BANDS`].
    pub fn load(bands: &[Band]) -> Result<Self, Refusal> {
        let table = Table::of(bands);
        boundary::load_bands(table.bytes())?;
        Ok(Bands(table))
    }

    /// The TIMINGR word for a kernel clock and a bus frequency in hertz, by these bands. A frequency
    /// above the last row is refused as [`Refusal::NO_BAND`]; the other refusals are 1 to 6, as of
    /// [`RawTimingr::for_bus`]. By document 01's five bands, the last one up to `u32::MAX`, every
    /// answer is the same as there.
    pub fn timing(&self, clock: u32, frequency: u32) -> Result<RawTimingr, Refusal> {
        boundary::timing_by_bands(self.0.bytes(), clock, frequency)
    }
}

impl RawTimingr {
    /// The word for a kernel clock and a bus frequency in hertz, by a board's bands that were not
    /// loaded: what [`Bands::load`] refuses is refused first, and the answer is that of
    /// [`Bands::timing`] otherwise.
    pub fn by_bands(bands: &[Band], clock: u32, frequency: u32) -> Result<Self, Refusal> {
        boundary::timing_by_bands(Table::of(bands).bytes(), clock, frequency)
    }
}
