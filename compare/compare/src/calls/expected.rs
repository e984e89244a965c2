//! The stored text of a call: its line, its accesses and its buffer.

use super::case::Case;
use super::run::Run;

pub fn of(case: &Case) -> String {
    text(&Run::of(case))
}

pub fn text(run: &Run) -> String {
    let mut text = String::new();
    run.write_outcome(&mut text);
    run.write_accesses(&mut text);
    run.write_buffer(&mut text);
    text
}

/// The run that document 01 prints.
#[cfg(test)]
pub const DOCUMENT_01: &str = "7 done 0 5 9\n\
                               w 04 020220A0\n\
                               r 18 00000001\n\
                               r 04 020200A0\n\
                               r 18 00000003\n\
                               w 28 00000012\n\
                               r 18 00000003\n\
                               w 28 00000034\n\
                               r 18 00000021\n\
                               w 1C 00000020\n\
                               b 1234\n";

#[cfg(test)]
mod tests {
    use super::*;
    use oracle::Asked;

    #[test]
    fn the_run_that_document_01_prints() {
        let case = Case {
            asked: Asked {
                call: 7,
                address: 0x50,
                operations: vec![2],
                ..Default::default()
            },
            buffer: vec![0x12, 0x34],
            answers: vec![1, 0x0202_00A0, 3, 3, 0x21],
        };
        assert_eq!(of(&case), DOCUMENT_01);
    }

    #[test]
    fn a_refused_call() {
        assert_eq!(of(&Case::default()), "0 refused 12 0 0\nb\n");
    }
}
