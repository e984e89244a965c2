//! Speed bands and the timing by them, read from document 02 and document 01 in plain numbers
//! of 64 bits, which nothing here can overflow. It shares nothing with the Rattle.

use crate::answer::{Answer, Refusal};
use crate::pairs::MOST_CLOCK;
use crate::rattle::{bytes, word};

/// The bytes of a row.
pub const ROW: usize = 24;

/// The most rows of a table.
pub const ROWS: usize = 16;

/// The shapes by their numbers.
pub const EQUAL: u32 = 0;
pub const DOUBLE: u32 = 1;

/// The highest prescaler, and the longest half, that its field can hold.
const MOST_PRESCALER: u64 = 16;
const MOST_HALF: u64 = 255;

/// A row of speed bands in the order of its words, fit or not.
#[derive(Clone, Copy, Debug, PartialEq, Eq)]
pub struct Row {
    pub upper_frequency: u32,
    pub least_clock: u32,
    pub d: u32,
    pub sdadel_divisor: u32,
    pub scldel_divisor: u32,
    pub shape: u32,
}

impl Row {
    pub fn words(self) -> [u32; 6] {
        [
            self.upper_frequency,
            self.least_clock,
            self.d,
            self.sdadel_divisor,
            self.scldel_divisor,
            self.shape,
        ]
    }

    fn of_bytes(bytes: &[u8]) -> Self {
        Row {
            upper_frequency: word(bytes, 0),
            least_clock: word(bytes, 1),
            d: word(bytes, 2),
            sdadel_divisor: word(bytes, 3),
            scldel_divisor: word(bytes, 4),
            shape: word(bytes, 5),
        }
    }

    /// Whether the row is right by itself.
    fn is_fit(&self) -> bool {
        (8..=256).contains(&self.d)
            && self.sdadel_divisor != 0
            && self.scldel_divisor != 0
            && (self.shape == EQUAL || self.shape == DOUBLE)
    }
}

/// Rows as they cross the boundary.
pub fn table(rows: &[Row]) -> Vec<u8> {
    let words: Vec<[u32; 6]> = rows.iter().map(|row| row.words()).collect();
    bytes(words.as_flattened()).to_vec()
}

/// Whether the rows are a table that is accepted.
pub fn accepts(rows: &[Row]) -> bool {
    let rise = |pair: &[Row]| pair[0].upper_frequency < pair[1].upper_frequency;
    (1..=ROWS).contains(&rows.len()) && rows.iter().all(Row::is_fit) && rows.windows(2).all(rise)
}

/// The rows of a table, or its refusal.
pub fn load(table: &[u8]) -> Result<Vec<Row>, Refusal> {
    if !table.len().is_multiple_of(ROW) {
        return Err(Refusal(16));
    }
    let rows: Vec<Row> = table.chunks(ROW).map(Row::of_bytes).collect();
    match accepts(&rows) {
        true => Ok(rows),
        false => Err(Refusal(16)),
    }
}

/// The place of the row that a frequency falls into: the first that reaches as far.
pub fn chosen(rows: &[Row], frequency: u32) -> Option<usize> {
    rows.iter().position(|row| frequency <= row.upper_frequency)
}

/// The timing by a table, which is looked at whole and before all else.
pub fn timing(table: &[u8], clock: u32, frequency: u32) -> Answer {
    let rows = load(table)?;
    if frequency == 0 {
        return Err(Refusal(1));
    }
    if clock > MOST_CLOCK {
        return Err(Refusal(2));
    }
    let row = chosen(&rows, frequency).ok_or(Refusal(17))?;
    in_row(&rows[row], clock, frequency)
}

fn in_row(row: &Row, clock: u32, frequency: u32) -> Answer {
    if clock / frequency < 4 {
        return Err(Refusal(3));
    }
    if clock < row.least_clock {
        return Err(Refusal(4));
    }
    let worked = Worked::of(row, clock, frequency);
    if worked.p > MOST_PRESCALER || worked.longest_half() > MOST_HALF {
        return Err(Refusal(5));
    }
    if worked.scldel_quotient == 0 {
        return Err(Refusal(6));
    }
    Ok(worked.timingr())
}

/// What the rule works out in a row on its way to the fields, for a ratio of at least 4.
pub struct Worked {
    /// The prescaler before it is held.
    pub prescaler: u64,
    /// The prescaler: held in an equal row, in a double row as it comes.
    pub p: u64,
    pub sclh: u64,
    pub scll: u64,
    pub sdadel_quotient: u64,
    pub scldel_quotient: u64,
}

impl Worked {
    pub fn of(row: &Row, clock: u32, frequency: u32) -> Self {
        let [clock, frequency, d] = [clock, frequency, row.d].map(u64::from);
        let ratio = clock / frequency;
        let prescaler = (ratio - 1) / d + 1;
        let p = match row.shape {
            EQUAL => prescaler.min(MOST_PRESCALER),
            _ => prescaler,
        };
        let c = ratio / p;
        let (sclh, scll) = match row.shape {
            EQUAL => ((c - 2) / 2, (c - 2) / 2),
            _ => ((c - 3) / 3, 2 * ((c - 3) / 3 + 1) - 1),
        };
        Worked {
            prescaler,
            p,
            sclh,
            scll,
            sdadel_quotient: clock / u64::from(row.sdadel_divisor) / p,
            scldel_quotient: clock / u64::from(row.scldel_divisor) / p,
        }
    }

    pub fn longest_half(&self) -> u64 {
        self.sclh.max(self.scll)
    }

    /// The fields at RM0492's places.
    fn timingr(&self) -> u32 {
        let presc = self.p - 1;
        let scldel = (self.scldel_quotient - 1).clamp(4, 15);
        let sdadel = self.sdadel_quotient.clamp(1, 15);
        let word = presc << 28 | scldel << 20 | sdadel << 16 | self.sclh << 8 | self.scll;
        word.try_into().expect("every field fits its place")
    }
}

#[cfg(test)]
mod tests {
    use super::*;

    const FIT: Row = Row {
        upper_frequency: 100_000,
        least_clock: 0,
        d: 64,
        sdadel_divisor: 2_000_000,
        scldel_divisor: 500_000,
        shape: EQUAL,
    };

    #[test]
    fn a_row_is_six_little_endian_words() {
        let row = Row {
            upper_frequency: 0x0403_0201,
            least_clock: 5,
            d: 6,
            sdadel_divisor: 7,
            scldel_divisor: 8,
            shape: 9,
        };
        let table = table(&[row]);
        assert_eq!(table[..5], [1, 2, 3, 4, 5]);
        assert_eq!((table.len(), table[20]), (ROW, 9));
        assert_eq!(Row::of_bytes(&table), row);
    }

    #[test]
    fn what_a_row_may_have() {
        let with = |change: fn(&mut Row)| {
            let mut row = FIT;
            change(&mut row);
            accepts(&[row])
        };
        assert!(with(|_| ()));
        assert!(with(|row| row.upper_frequency = 0));
        assert!(with(|row| row.least_clock = u32::MAX));
        assert!(with(|row| row.d = 8) && with(|row| row.d = 256));
        assert!(!with(|row| row.d = 7) && !with(|row| row.d = 257));
        assert!(with(|row| row.sdadel_divisor = 1) && with(|row| row.scldel_divisor = 1));
        assert!(!with(|row| row.sdadel_divisor = 0) && !with(|row| row.scldel_divisor = 0));
        assert!(with(|row| row.shape = DOUBLE));
        assert!(!with(|row| row.shape = 2) && !with(|row| row.shape = u32::MAX));
    }

    #[test]
    fn how_many_rows_and_in_what_order() {
        let rows = |frequencies: &[u32]| {
            let row = |&upper_frequency| Row {
                upper_frequency,
                ..FIT
            };
            frequencies.iter().map(row).collect::<Vec<Row>>()
        };
        let rising: Vec<u32> = (0..17).collect();
        assert!(!accepts(&[]));
        assert!(accepts(&rows(&rising[..16])) && !accepts(&rows(&rising)));
        assert!(!accepts(&rows(&[5, 5])) && !accepts(&rows(&[5, 4])));
        let mut bytes = table(&rows(&[5, 6]));
        assert_eq!(load(&bytes), Ok(rows(&[5, 6])));
        for more in 1..ROW {
            bytes.push(0);
            assert_eq!(load(&bytes), Err(Refusal(16)), "{more} bytes more");
        }
    }
}
