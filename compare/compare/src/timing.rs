//! `compare timing`: the driver's timing rule beside Rattle's, and beside the timing by a table of
//! document 01's five bands (document 02, R-4): Rattle's, and the one read from the documents.

mod above;

use oracle::{calc_timing, pack};

use crate::answer::{Answer, Differences, Refusal, Shown};
use crate::bands::examples::DOCUMENT_01;
use crate::bands::reading;
use crate::pairs::{self, Pair, MOST_CLOCK};
use crate::random::Random;
use crate::rattle;
use above::Row;

/// What the driver gives, its panics read as refusals. It has no check of the highest clock, so
/// document 01 decides above that.
pub fn expected((clock, frequency): Pair) -> Answer {
    if is_above((clock, frequency)) {
        return Err(Refusal(2));
    }
    calc_timing(clock, frequency).map(pack).map_err(|panic| {
        let refusal = panic.kind.refusal();
        Refusal(refusal.unwrap_or_else(|| panic!("{clock} {frequency}: {}", panic.message)))
    })
}

/// Whether the clock is refused as 2.
fn is_above((clock, frequency): Pair) -> bool {
    clock > MOST_CLOCK && frequency != 0
}

/// Compares all edges, and random pairs until there are `least`. True if all went well.
pub fn compare(least: u64, seed: u64) -> bool {
    let mut tally = Tally::default();
    let mut differences = Differences::default();
    let mut source = Random::new(seed);
    let bands = reading::table(&DOCUMENT_01);
    let edges = pairs::edges();
    let random = least.saturating_sub(edges.len() as u64);
    println!(
        "timing: {} edges, {random} random pairs from seed {seed}",
        edges.len()
    );
    let random = (0..random).map(|turn| pairs::random(&mut source, turn));
    let mut compared = 0_u64;
    for pair in edges.into_iter().chain(random) {
        let (clock, frequency) = pair;
        let expected = expected(pair);
        tally.count(frequency, expected);
        let size = u64::from(clock) << 32 | u64::from(frequency);
        if is_above(pair) {
            match above::row(pair) {
                Ok(row) => tally.above[row as usize] += 1,
                Err(told) => differences.add(size, told),
            }
        }
        let by_bands = rattle::timing_by_bands(&bands, clock, frequency);
        let read = reading::timing(&bands, clock, frequency);
        for (side, given) in [
            ("Rattle", rattle::timing(clock, frequency)),
            ("Rattle by the five bands", by_bands),
            ("what is read from document 02", read),
        ] {
            differences.compare(size, expected, given, |expected, given| {
                let (expected, given) = (Shown(expected), Shown(given));
                format!("{clock} {frequency}: the Rust {expected}, {side} {given}")
            });
        }
        compared += 1;
        if compared.is_multiple_of(100_000) {
            eprintln!(
                "timing: {compared} pairs, {} differences",
                differences.count()
            );
        }
    }
    tally.print();
    differences.print();
    println!(
        "timing: {compared} pairs compared, {} differences",
        differences.count()
    );
    tally.all_reached() && differences.count() == 0
}

#[derive(Default)]
struct Tally {
    /// How many pairs each band has, by refusal; refusal 0 stands for an accepted one.
    pairs: [[u64; 7]; DOCUMENT_01.len()],
    /// How many pairs above the highest clock each row has.
    above: [u64; Row::ALL.len()],
}

impl Tally {
    fn count(&mut self, frequency: u32, answer: Answer) {
        let band = DOCUMENT_01.partition_point(|row| row.upper_frequency < frequency);
        let refusal = answer.err().map_or(0, |refusal| refusal.0);
        self.pairs[band][refusal as usize] += 1;
    }

    fn print(&self) {
        print!("{:>16}{:>13}", "frequency up to", "accepted");
        for refusal in 1..=6 {
            print!("{:>13}", format!("{refusal} {}", Refusal(refusal).words()));
        }
        println!();
        for (row, counts) in DOCUMENT_01.iter().zip(self.pairs) {
            print!("{:>16}", row.upper_frequency);
            for count in counts {
                print!("{count:>13}");
            }
            println!();
        }
        for (row, count) in Row::ALL.iter().zip(self.above) {
            println!("above {MOST_CLOCK} Hz the Rust {}: {count}", row.words());
        }
    }

    /// Whether every band has an accepted pair, every refusal was given, and the Rust did all that it
    /// does above the highest clock.
    fn all_reached(&self) -> bool {
        let bands = self.pairs.iter().all(|counts| counts[0] > 0);
        let refused = |refusal: usize| self.pairs.iter().any(|counts| counts[refusal] > 0);
        let reached = bands && (1..=6).all(refused) && self.above.iter().all(|&count| count > 0);
        if !reached {
            println!("timing: a band, a refusal or a row above the highest clock was not reached");
        }
        reached
    }
}
