//! `compare bands` and `compare bands-program`: tables of speed bands and the timing by them
//! (document 02, R-4), by a reading that shares nothing with the Rattle.

mod case;
pub mod examples;
pub mod generate;
mod program;
mod reached;
pub mod reading;
mod shrink;
mod text;
#[cfg(test)]
mod wrong;

use crate::answer::{Answer, Shown};
use crate::random::Random;
use crate::rattle;
use crate::runs::room::Room;
use case::Case;
use reached::Reached;

pub use program::compare as compare_program;

/// From so many cases on nothing may be missing.
const ENOUGH: u64 = 20_000;

/// What stands where a TIMINGR word is to be left.
const UNWRITTEN: u32 = 0xB1B1_B1B1;

/// The two functions that are compared.
trait Functions {
    fn load_bands(&self, table: &[u8]) -> u32;
    fn timing_by_bands(&self, table: &[u8], clock: u32, frequency: u32, timingr: &mut u32) -> u32;
}

/// Those of the Rattle library.
struct Library;

impl Functions for Library {
    fn load_bands(&self, table: &[u8]) -> u32 {
        rattle::load_bands(table)
    }

    fn timing_by_bands(&self, table: &[u8], clock: u32, frequency: u32, timingr: &mut u32) -> u32 {
        rattle::timing_by_bands_into(table, clock, frequency, timingr)
    }
}

/// Compares the worked examples, and random tables with a pair each. True if all went well.
pub fn compare(cases: u64, seed: u64) -> bool {
    let examples = examples::cases();
    let count = examples.len();
    println!("bands: {count} examples, and {cases} random tables from seed {seed}");
    for (case, answer) in &examples {
        if let Err(told) = check(case, *answer, 0, &Library) {
            println!("bands: an example differs:\n{case}: {told}");
            return false;
        }
    }
    let mut reached = Reached::default();
    if let Some(difference) = first_difference(cases, seed, &Library, &mut reached) {
        show(&difference, &Library);
        return false;
    }
    reached.print();
    println!("bands: {count} examples and {cases} random tables compared, 0 differences");
    let missing = reached.missing();
    let all = cases < ENOUGH || missing.is_empty();
    if !all {
        println!("bands: not reached: {}", missing.join("; "));
    }
    all
}

/// A case that differs, where its table lies so many bytes after an aligned place.
struct Difference {
    case: Case,
    shift: usize,
}

/// The first among random cases that differs.
fn first_difference(
    cases: u64,
    seed: u64,
    functions: &impl Functions,
    reached: &mut Reached,
) -> Option<Difference> {
    let mut random = Random::new(seed);
    for _ in 0..cases {
        let case = generate::case(&mut random);
        let shift = random.up_to(7) as usize;
        let expected = case.expected();
        if check(&case, expected, shift, functions).is_err() {
            return Some(Difference { case, shift });
        }
        reached.count(&case, expected);
        if reached.cases.is_multiple_of(50_000) {
            eprintln!("bands: {} tables", reached.cases);
        }
    }
    None
}

/// Holds both functions to what they have to give. The table is only read.
fn check(
    case: &Case,
    expected: Answer,
    shift: usize,
    functions: &impl Functions,
) -> Result<(), String> {
    let table = case.table();
    let mut lent = Room::default();
    lent.hold(&table, shift);
    let loaded = functions.load_bands(lent.content());
    if loaded != case.loaded() {
        return Err(format!(
            "loading gives {loaded} and should give {}",
            case.loaded()
        ));
    }
    let mut timingr = UNWRITTEN;
    let number =
        functions.timing_by_bands(lent.content(), case.clock, case.frequency, &mut timingr);
    let right = match expected {
        Ok(word) => (0, word),
        Err(refusal) => (refusal.0, 0),
    };
    if (number, timingr) != right {
        let expected = Shown(expected);
        return Err(format!(
            "{expected} is expected, but the number is {number} and the word 0x{timingr:08X}"
        ));
    }
    match lent.content() == table && lent.margins_are_blank() {
        true => Ok(()),
        false => Err("the table was written".to_string()),
    }
}

/// Shows a difference by the smallest table and pair that were found to have one.
fn show(Difference { case, shift }: &Difference, functions: &impl Functions) {
    let told = |case: &Case| check(case, case.expected(), *shift, functions).err();
    let smallest = shrink::smallest(case, |case| told(case).is_some());
    let told = told(&smallest).expect("it differs");
    println!("bands: a difference is shown by the rows\n{smallest}: {told}");
}

#[cfg(test)]
mod tests {
    use super::*;

    #[test]
    fn the_library_gives_the_worked_answers() {
        for (case, answer) in examples::cases() {
            for shift in 0..8 {
                assert_eq!(check(&case, answer, shift, &Library), Ok(()), "{case}");
            }
        }
    }

    #[test]
    fn the_library_gives_what_the_documents_say() {
        let mut reached = Reached::default();
        let difference = first_difference(5_000, 1, &Library, &mut reached);
        assert_eq!(difference.map(|it| it.case), None);
        assert_eq!(reached.cases, 5_000);
    }
}
