//! Speed bands as a text that a person writes, one row to a line: how it is read, and random ones.

use super::case::Case;
use super::reading::{self, Row, DOUBLE, EQUAL, ROWS};
use crate::random::Random;

/// Why a text is no accepted table.
#[derive(Clone, Copy, Debug, PartialEq, Eq)]
pub enum Wrong {
    NoRow,
    /// The first row that cannot stand, by the number of its line.
    Line(usize, Cause),
}

#[derive(Clone, Copy, Debug, PartialEq, Eq)]
pub enum Cause {
    /// It has not six words.
    Words,
    Number,
    Shape,
    /// It is one too many.
    Rows,
    /// It is a row, but with those before it no table.
    Table,
}

/// The rows of a text.
pub fn read(text: &str) -> Result<Vec<Row>, Wrong> {
    let mut rows = Vec::new();
    for (place, line) in text.split('\n').enumerate() {
        let words = words(line);
        if words.is_empty() {
            continue;
        }
        let wrong = |cause| Wrong::Line(place + 1, cause);
        rows.push(row(&words).map_err(wrong)?);
        if rows.len() > ROWS {
            return Err(wrong(Cause::Rows));
        }
        if !reading::accepts(&rows) {
            return Err(wrong(Cause::Table));
        }
    }
    match rows.is_empty() {
        true => Err(Wrong::NoRow),
        false => Ok(rows),
    }
}

/// The words of a line before its comment.
fn words(line: &str) -> Vec<&str> {
    let line = line.strip_suffix('\r').unwrap_or(line);
    let row = line.split('#').next().unwrap_or(line);
    let words = row.split([' ', '\t']);
    words.filter(|word| !word.is_empty()).collect()
}

fn row(words: &[&str]) -> Result<Row, Cause> {
    let &[upper, least, d, sdadel, scldel, shape] = words else {
        return Err(Cause::Words);
    };
    Ok(Row {
        upper_frequency: number(upper)?,
        least_clock: number(least)?,
        d: number(d)?,
        sdadel_divisor: number(sdadel)?,
        scldel_divisor: number(scldel)?,
        shape: match shape {
            "equal" => EQUAL,
            "double" => DOUBLE,
            _ => return Err(Cause::Shape),
        },
    })
}

/// A number of 32 bits. Rust's own reading would take a sign as well.
fn number(word: &str) -> Result<u32, Cause> {
    let (digits, base) = match word.strip_prefix("0x") {
        Some(digits) => (digits, 16),
        None => (word, 10),
    };
    let are_digits = digits.chars().all(|digit| digit.is_digit(base));
    let number = u32::from_str_radix(digits, base).ok();
    number.filter(|_| are_digits).ok_or(Cause::Number)
}

/// Words that are no shape.
const NO_SHAPES: [&str; 7] = ["triple", "equ", "equally", "doubled", "EQUAL", "0", "1"];

/// Words that are no number of 32 bits.
const NO_NUMBERS: [&str; 10] = [
    "4294967296",
    "0x100000000",
    "18446744073709551617",
    "0x10000000000000001",
    "99999999999999999999999",
    "x",
    "0x",
    "12k",
    "-1",
    "equal",
];

/// The lines of a text with the rows of a case, each with its end; in one of four texts a row has
/// something wrong that only a text can have.
pub fn any_lines(case: &Case, random: &mut Random) -> Vec<String> {
    let mut rows = written_rows(case, random);
    if random.up_to(3) == 0 && !rows.is_empty() {
        let place = random.up_to(rows.len() as u32 - 1) as usize;
        damage(&mut rows[place], random);
    }
    laid_out(&rows, random)
}

/// Likewise, with nothing wrong but what is wrong with the rows.
pub fn lines(case: &Case, random: &mut Random) -> Vec<String> {
    let rows = written_rows(case, random);
    laid_out(&rows, random)
}

/// Rows by their words.
type Words = Vec<String>;

/// The lines of rows, others among them.
fn laid_out(rows: &[Words], random: &mut Random) -> Vec<String> {
    let end = random.pick(&["\n", "\n", "\r\n"]);
    let mut lines = Vec::new();
    for words in rows {
        while random.up_to(3) == 0 {
            lines.push(between(random) + end);
        }
        lines.push(line(words, random) + end);
    }
    while random.up_to(2) == 0 {
        lines.push(between(random) + end);
    }
    if let (Some(last), 0) = (lines.last_mut(), random.up_to(3)) {
        // The file may end before the line does.
        last.truncate(last.len() - end.len());
    }
    lines
}

fn written_rows(case: &Case, random: &mut Random) -> Vec<Words> {
    case.rows.iter().map(|row| written(row, random)).collect()
}

/// A row's words; of a number that is no shape a word that is none.
fn written(row: &Row, random: &mut Random) -> Words {
    let [numbers @ .., shape] = row.words();
    let mut words = numbers.map(|number| digits(number, random)).to_vec();
    let shape = match shape {
        EQUAL => "equal",
        DOUBLE => "double",
        _ => random.pick(&NO_SHAPES),
    };
    words.push(shape.to_string());
    words
}

fn digits(number: u32, random: &mut Random) -> String {
    match random.up_to(7) {
        0 => format!("0x{number:x}"),
        1 => format!("0x{number:X}"),
        2 => format!("0x{number:08X}"),
        3 => format!("0{number}"),
        _ => format!("{number}"),
    }
}

/// A wrong word, one too few or one too many.
fn damage(words: &mut Words, random: &mut Random) {
    let place = random.up_to(5) as usize;
    match random.up_to(4) {
        0 => words[5] = random.pick(&NO_SHAPES).to_string(),
        1 | 2 => words[place.min(4)] = random.pick(&NO_NUMBERS).to_string(),
        3 => drop(words.remove(place)),
        _ => words.insert(place + 1, random.pick(&["7", "equal", "0x"]).to_string()),
    }
}

/// A row's line, perhaps with a comment.
fn line(words: &[String], random: &mut Random) -> String {
    let mut line = blanks(random, 0);
    for (place, word) in words.iter().enumerate() {
        line += &blanks(random, usize::from(place > 0));
        line += word;
    }
    line += &blanks(random, 0);
    if random.up_to(3) == 0 {
        line += &comment(random);
    }
    line
}

/// A line without a row.
fn between(random: &mut Random) -> String {
    let line = blanks(random, 0);
    match random.up_to(1) {
        0 => line,
        _ => line + &comment(random),
    }
}

fn comment(random: &mut Random) -> String {
    let comment = random.pick(&[
        "#",
        "# long cables",
        "# 5 0 8 1 1 equal",
        "## triple # 1",
        "#\tHz",
    ]);
    match random.up_to(15) {
        0 => comment.repeat(30),
        _ => comment.to_string(),
    }
}

/// Blanks and tabs, at least so many. Most often there are no more.
fn blanks(random: &mut Random, least: usize) -> String {
    let more = random.pick(&[0, 0, 0, 0, 1, 3]);
    (0..least + more)
        .map(|_| random.pick(&[' ', ' ', ' ', '\t']))
        .collect()
}

#[cfg(test)]
mod tests {
    use super::*;
    use crate::bands::examples::{self, DOCUMENT_01};
    use crate::bands::generate;

    const TEXT: &str = "# the five bands of document 01\r\n\
        7999 2000000 256 2000000 500000 equal\r\n\
        \r\n\
        \t 0x1387F 2000000  0x80\t2000000 500000 equal # some\r\n\
        100000 2000000 64 2000000 500000 equal#more\n\
        400000 8000000 96 3000000 1000000 double\n  \n\
        0xffffFFFF 17000000 96 8000000 4000000 double";

    #[test]
    fn a_text_is_read() {
        assert_eq!(read(TEXT), Ok(DOCUMENT_01.to_vec()));
        for text in ["", "\n", "# 5 0 8 1 1 equal\n", " \t\r\n#\n"] {
            assert_eq!(read(text), Err(Wrong::NoRow), "{text:?}");
        }
    }

    #[test]
    fn the_first_row_that_cannot_stand_is_named() {
        let wrong = |row: &str| read(&format!("\n5 0 8 1 1 equal\n\n{row}\ntriple\n")).err();
        let line_4 = |cause| Some(Wrong::Line(4, cause));
        assert_eq!(wrong("6 0 8 1 1 triple"), line_4(Cause::Shape));
        assert_eq!(wrong("6 0 8 1 1"), line_4(Cause::Words));
        assert_eq!(wrong("6 0 8 1 1 1 equal"), line_4(Cause::Words));
        assert_eq!(wrong("4294967296 0 8 1 1 equal"), line_4(Cause::Number));
        assert_eq!(wrong("6 0 0x100000008 1 1 equal"), line_4(Cause::Number));
        assert_eq!(wrong("6 +0 8 1 1 equal"), line_4(Cause::Number));
        assert_eq!(wrong("5 0 8 1 1 equal"), line_4(Cause::Table));
        assert_eq!(wrong("6 0 7 1 1 equal"), line_4(Cause::Table));
        assert_eq!(wrong("6 0 8 1 0 double"), line_4(Cause::Table));
        let right = wrong("6 0 8 1 1 double");
        assert_eq!(
            right,
            Some(Wrong::Line(5, Cause::Words)),
            "the next is none"
        );
        let rows: String = (1..=17)
            .map(|row| format!("{row} 0 8 1 1 equal\n"))
            .collect();
        assert_eq!(read(&rows), Err(Wrong::Line(17, Cause::Rows)));
    }

    #[test]
    fn what_is_written_is_read_again() {
        let mut random = Random::new(1);
        let (mut same, mut wrong) = (0, 0);
        for _ in 0..1_000 {
            let case = generate::case(&mut random);
            match read(&any_lines(&case, &mut random).concat()) {
                Ok(rows) => {
                    assert_eq!(rows, case.rows);
                    same += 1;
                }
                Err(_) => wrong += 1,
            }
        }
        assert!(same > 300 && wrong > 300, "{same} and {wrong}");
    }

    #[test]
    fn words_that_are_wrong() {
        assert!(NO_NUMBERS.iter().all(|word| number(word).is_err()));
        assert_eq!(number("4294967295"), Ok(u32::MAX));
        assert_eq!(number("0x00000000ffffffff"), Ok(u32::MAX));
        let (case, _) = &examples::cases()[0];
        let mut row = written(&case.rows[0], &mut Random::new(1));
        for shape in NO_SHAPES {
            row[5] = shape.to_string();
            assert!(read(&row.join(" ")).is_err(), "{shape}");
        }
    }
}
