//! `compare store-timing`: a fixed sample, as a file of inputs and one of the driver's answers.

use std::{fmt::Write, fs, io};

use crate::answer::Shown;
use crate::pairs;
use crate::timing;

const HOW: &str = "# CLOCK FREQUENCY; made in compare/ by: \
                   cargo run --release --offline -- store-timing --inputs FILE --answers FILE";

/// The text of the inputs and that of the answers.
pub type Texts = (String, String);

pub fn timing() -> Texts {
    let mut inputs = format!("{HOW}\n");
    let mut answers = String::new();
    for pair in pairs::sample() {
        let (clock, frequency) = pair;
        let answer = Shown(timing::expected(pair));
        writeln!(inputs, "{clock} {frequency}").unwrap();
        writeln!(answers, "{clock} {frequency} {answer}").unwrap();
    }
    (inputs, answers)
}

pub fn write(texts: Texts, inputs: &str, answers: &str) -> io::Result<()> {
    fs::write(inputs, texts.0)?;
    fs::write(answers, texts.1)
}

/// True if both files are as `write` would make them.
pub fn check(texts: Texts, inputs: &str, answers: &str) -> io::Result<bool> {
    let mut same = true;
    for (file, text) in [(inputs, texts.0), (answers, texts.1)] {
        if fs::read_to_string(file)? != text {
            println!("{file} is not what would be stored");
            same = false;
        }
    }
    Ok(same)
}

#[cfg(test)]
mod tests {
    #[test]
    fn the_files_have_a_line_for_each_pair() {
        let (inputs, answers) = super::timing();
        let inputs: Vec<&str> = inputs.lines().collect();
        let answers: Vec<&str> = answers.lines().collect();
        assert!(inputs[0].starts_with('#'));
        assert_eq!(inputs.len(), answers.len() + 1);
        assert!(inputs[1..].iter().zip(&answers).all(|(pair, answer)| {
            let words: Vec<&str> = answer.split(' ').collect();
            words[..2].join(" ") == *pair
        }));
        assert_eq!(
            answers[0],
            "250000000 400000 0x60FB1C39 presc 6 scldel 15 sdadel 11 sclh 28 scll 57"
        );
        assert_eq!(answers[9], "2000000 1951 refused 6 no setup");
    }
}
