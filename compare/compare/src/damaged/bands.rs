//! Tables of speed bands, of a maker or of nobody, and what they have to give.

use super::{held, spoil};
use crate::bands::generate;
use crate::bands::reading;
use crate::random::Random;

/// The most bytes of a table that is none: more than 16 rows take.
const MOST: u32 = 1_000;

/// What a timing is asked of.
#[derive(Clone, Debug)]
pub struct Bands {
    pub table: Vec<u8>,
    pub clock: u32,
    pub frequency: u32,
}

/// How timings by bands came out.
#[derive(Debug, Default)]
pub struct Timings {
    timings: u64,
    empty: u64,
    not_whole: u64,
    bad: u64,
    /// Refused by an accepted table.
    refused: u64,
}

impl Timings {
    pub fn all_reached(&self) -> bool {
        [
            self.timings,
            self.empty,
            self.not_whole,
            self.bad,
            self.refused,
        ]
        .iter()
        .all(|&count| count > 0)
    }
}

impl Bands {
    /// Mostly a table as `compare bands` has it, also cut or with a bit changed; now and then any
    /// bytes.
    pub fn any(random: &mut Random) -> Self {
        let case = generate::case(random);
        let mut table = case.table();
        match random.up_to(7) {
            0 => {
                table = vec![0; random.up_to(MOST) as usize];
                table.fill_with(|| random.word() as u8);
            }
            kind => spoil(&mut table, kind, random),
        }
        Bands {
            table,
            clock: case.clock,
            frequency: case.frequency,
        }
    }

    pub fn hold_loaded(&self, number: u32) -> Result<(), String> {
        let refusal = reading::load(&self.table).err();
        held(
            "a loaded table",
            number == refusal.map_or(0, |refusal| refusal.0),
        )
    }

    pub fn hold_timing(
        &self,
        number: u32,
        timingr: u32,
        timings: &mut Timings,
    ) -> Result<(), String> {
        let expected = reading::timing(&self.table, self.clock, self.frequency);
        let right = match expected {
            Ok(word) => (0, word),
            Err(refusal) => (refusal.0, 0),
        };
        held("a timing by bands", (number, timingr) == right)?;
        *match number {
            0 => &mut timings.timings,
            16 if self.table.is_empty() => &mut timings.empty,
            16 if !self.table.len().is_multiple_of(reading::ROW) => &mut timings.not_whole,
            16 => &mut timings.bad,
            _ => &mut timings.refused,
        } += 1;
        Ok(())
    }
}

#[cfg(test)]
mod tests {
    use super::*;
    use crate::bands::examples::DOCUMENT_01;

    #[test]
    fn what_a_timing_by_bands_may_be() {
        let bands = |clock| Bands {
            table: reading::table(&DOCUMENT_01),
            clock,
            frequency: 400_000,
        };
        let held = |bands: Bands, number, timingr| {
            let mut timings = Timings::default();
            bands.hold_timing(number, timingr, &mut timings).is_ok()
        };
        assert!(held(bands(8_000_000), 0, 0x0072_050B));
        assert!(!held(bands(8_000_000), 0, 0x0072_050C));
        assert!(!held(bands(8_000_000), 4, 0));
        assert!(held(bands(7_999_999), 4, 0));
        assert!(!held(bands(7_999_999), 4, 0x0072_050B));
        assert_eq!(bands(0).hold_loaded(0), Ok(()));
        assert!(bands(0).hold_loaded(16).is_err());
        let mut cut = bands(8_000_000);
        cut.table.pop();
        assert_eq!(cut.hold_loaded(16), Ok(()));
        assert!(held(cut, 16, 0));
    }
}
