//! `compare bands-program`: the timing program, which reads speed bands from a text.

use std::path::Path;
use std::{env, fs, io, process as this};

use super::case::Case;
use super::text::{self, Cause, Wrong};
use super::{examples, generate, reading};
use crate::answer::{Refusal, Shown};
use crate::difference;
use crate::process;
use crate::random::Random;
use crate::shrink;

/// From so many tables on nothing may be missing.
const ENOUGH: u64 = 300;

/// A text by its lines, and the pair that is asked for.
#[derive(Clone, Debug, PartialEq, Eq)]
struct Asked {
    lines: Vec<String>,
    clock: u32,
    frequency: u32,
}

impl Asked {
    fn of(case: &Case, lines: Vec<String>) -> Self {
        Asked {
            lines,
            clock: case.clock,
            frequency: case.frequency,
        }
    }

    fn any(random: &mut Random) -> Self {
        let case = generate::case(random);
        Asked::of(&case, text::any_lines(&case, random))
    }
}

/// What the program prints, and what it says of a text that is no table.
struct Said {
    printed: String,
    complaint: String,
}

/// Compares the worked examples and random texts. True if all went well.
pub fn compare(tables: u64, seed: u64, program: &str) -> io::Result<bool> {
    println!("bands-program: the examples, and {tables} random texts from seed {seed}");
    let file = env::temp_dir().join(format!("bands-{}.txt", this::id()));
    let program = Program {
        path: program,
        file: &file,
    };
    let result = program.compare(tables, seed);
    // It is there, unless it could not be written, and then that is told.
    let _ = fs::remove_file(&file);
    result
}

/// The program, and the file that it reads.
struct Program<'a> {
    path: &'a str,
    file: &'a Path,
}

impl Program<'_> {
    fn compare(&self, tables: u64, seed: u64) -> io::Result<bool> {
        let mut random = Random::new(seed);
        let mut tally = Tally::default();
        let examples = examples::cases().into_iter();
        let mut texts: Vec<Asked> = examples
            .map(|(case, _)| Asked::of(&case, text::lines(&case, &mut random)))
            .collect();
        texts.extend((0..tables).map(|_| Asked::any(&mut random)));
        for asked in texts {
            if self.differs(&asked)? {
                self.show(&asked)?;
                return Ok(false);
            }
            tally.count(&asked);
        }
        tally.print();
        println!(
            "bands-program: {} texts compared, 0 differences",
            tally.texts()
        );
        let all = tables < ENOUGH || tally.all_reached();
        if !all {
            println!("bands-program: one of these was not reached");
        }
        Ok(all)
    }

    fn differs(&self, asked: &Asked) -> io::Result<bool> {
        let expected = expected(asked, &self.name());
        Ok(!agrees(&expected, &self.given(asked)?))
    }

    fn name(&self) -> String {
        self.file.display().to_string()
    }

    fn given(&self, asked: &Asked) -> io::Result<Said> {
        fs::write(self.file, asked.lines.concat())?;
        let [clock, frequency] = [asked.clock, asked.frequency].map(|number| number.to_string());
        let arguments = ["--bands", &self.name(), &clock, &frequency];
        let output = process::run(self.path, &arguments, &[])?;
        let text = |bytes: &[u8]| String::from_utf8_lossy(bytes).into_owned();
        let failure = process::failure(&output).unwrap_or_default();
        Ok(Said {
            printed: text(&output.stdout),
            complaint: text(&output.stderr) + &failure,
        })
    }

    /// Shows a difference by the fewest lines that were found to have one.
    fn show(&self, asked: &Asked) -> io::Result<()> {
        let smallest = shrink::smallest(asked, with_fewer_lines, |asked| self.differs(asked))?;
        let given = self.given(&smallest)?;
        let expected = expected(&smallest, &self.name());
        let Asked {
            lines,
            clock,
            frequency,
        } = smallest;
        println!("bands-program: a difference is shown, for {clock} {frequency}, by the lines");
        for line in &lines {
            println!("    {line:?}");
        }
        difference::print(&expected.printed, &given.printed);
        let more = match expected.complaint.is_empty() {
            true => "and no more",
            false => "and more in this line",
        };
        println!("on standard error");
        println!("expected: {:?} {more}", expected.complaint);
        println!("given:    {:?}", given.complaint);
        Ok(())
    }
}

fn with_fewer_lines(asked: &Asked, place: usize) -> Option<Asked> {
    let mut fewer = asked.clone();
    (place < fewer.lines.len()).then(|| {
        fewer.lines.remove(place);
        fewer
    })
}

/// What has to be printed of the text in a file, and what standard error has to begin with.
fn expected(asked: &Asked, file: &str) -> Said {
    let (clock, frequency) = (asked.clock, asked.frequency);
    let rows = text::read(&asked.lines.concat());
    let answer = match &rows {
        Ok(rows) => reading::timing(&reading::table(rows), clock, frequency),
        Err(_) => Err(Refusal(16)),
    };
    Said {
        printed: format!("{clock} {frequency} {}\n", Shown(answer)),
        complaint: match rows {
            Ok(_) => String::new(),
            Err(Wrong::NoRow) => format!("{file}: no row"),
            Err(Wrong::Line(line, _)) => format!("{file}:{line}: "),
        },
    }
}

/// Whether what was said is what is expected; a complaint is one line.
fn agrees(expected: &Said, given: &Said) -> bool {
    let complains = match expected.complaint.is_empty() {
        true => given.complaint.is_empty(),
        false => {
            given.complaint.starts_with(&expected.complaint)
                && given.complaint.find('\n') == Some(given.complaint.len() - 1)
        }
    };
    complains && given.printed == expected.printed
}

/// How texts came out.
#[derive(Default)]
struct Tally {
    timings: u64,
    refused: u64,
    no_row: u64,
    /// Texts with a wrong row, by its cause.
    words: u64,
    numbers: u64,
    shapes: u64,
    rows: u64,
    tables: u64,
}

impl Tally {
    fn count(&mut self, asked: &Asked) {
        let rows = text::read(&asked.lines.concat());
        let timing = |rows: &[_]| {
            let table = reading::table(rows);
            reading::timing(&table, asked.clock, asked.frequency)
        };
        *match rows {
            Ok(rows) if timing(&rows).is_ok() => &mut self.timings,
            Ok(_) => &mut self.refused,
            Err(Wrong::NoRow) => &mut self.no_row,
            Err(Wrong::Line(_, Cause::Words)) => &mut self.words,
            Err(Wrong::Line(_, Cause::Number)) => &mut self.numbers,
            Err(Wrong::Line(_, Cause::Shape)) => &mut self.shapes,
            Err(Wrong::Line(_, Cause::Rows)) => &mut self.rows,
            Err(Wrong::Line(_, Cause::Table)) => &mut self.tables,
        } += 1;
    }

    fn counts(&self) -> [(&'static str, u64); 8] {
        [
            ("timings", self.timings),
            ("refused by an accepted table", self.refused),
            ("16: no row", self.no_row),
            ("16: a line of another number of words", self.words),
            ("16: a word that is no number of 32 bits", self.numbers),
            ("16: a word that is no shape", self.shapes),
            ("16: a 17th row", self.rows),
            ("16: a row that the table cannot have there", self.tables),
        ]
    }

    fn texts(&self) -> u64 {
        self.counts().iter().map(|(_, count)| count).sum()
    }

    fn print(&self) {
        for (what, count) in self.counts() {
            println!("{what}: {count}");
        }
    }

    fn all_reached(&self) -> bool {
        self.counts().iter().all(|(_, count)| *count > 0)
    }
}

#[cfg(test)]
mod tests {
    use super::*;

    fn asked(text: &str, clock: u32, frequency: u32) -> Asked {
        Asked {
            lines: text.split_inclusive('\n').map(str::to_string).collect(),
            clock,
            frequency,
        }
    }

    fn said(printed: &str, complaint: &str) -> Said {
        Said {
            printed: printed.to_string(),
            complaint: complaint.to_string(),
        }
    }

    #[test]
    fn what_is_printed_and_what_is_said() {
        let text = "50000 1000000 32 1000000 250000 equal\n\
                    200000 4000000 200 2000000 800000 double\n";
        let timing = expected(&asked(text, 8_000_000, 50_000), "FILE");
        let line = "8000000 50000 0x40510F0F presc 4 scldel 5 sdadel 1 sclh 15 scll 15\n";
        assert_eq!((&*timing.printed, &*timing.complaint), (line, ""));
        let printed = |clock, frequency| expected(&asked(text, clock, frequency), "FILE").printed;
        assert_eq!(printed(100, 200_001), "100 200001 refused 17 no band\n");
        assert_eq!(printed(100, 200_000), "100 200000 refused 3 ratio\n");

        let bad = expected(&asked(&text.replace("200 ", "257 "), 1, 0), "FILE");
        assert_eq!(bad.printed, "1 0 refused 16 bad bands\n");
        assert_eq!(bad.complaint, "FILE:2: ");
        assert_eq!(
            expected(&asked("#\n", 1, 0), "FILE").complaint,
            "FILE: no row"
        );
    }

    #[test]
    fn a_difference_is_found() {
        let right = said("1 0 refused 1 no speed\n", "");
        assert!(agrees(&right, &said("1 0 refused 1 no speed\n", "")));
        assert!(!agrees(&right, &said("1 0 refused 1 no speed", "")));
        assert!(!agrees(&right, &said("1 0 refused 2 clock over\n", "")));
        assert!(!agrees(
            &right,
            &said("1 0 refused 1 no speed\n", "FILE:1: d\n")
        ));
        let bad = said("1 0 refused 16 bad bands\n", "FILE:2: ");
        let given = |complaint| agrees(&bad, &said("1 0 refused 16 bad bands\n", complaint));
        assert!(given("FILE:2: d is not 8 to 256\n"));
        assert!(!given("") && !given("FILE:2: d is not 8 to 256"));
        assert!(!given("FILE:1: d\n") && !given("FILE:20: d\n"));
        assert!(!given("FILE:2: d\nFILE:3: d\n"));
    }

    #[test]
    fn texts_of_all_kinds() {
        let mut random = Random::new(1);
        let mut tally = Tally::default();
        for _ in 0..ENOUGH {
            tally.count(&Asked::any(&mut random));
        }
        assert!(tally.all_reached());
        assert_eq!(tally.texts(), ENOUGH);
    }
}
