//! What the bench program has to print of a file.

use super::meaning;
use crate::calls::pieces::later_controls;
use crate::calls::run::Run;
use crate::page;

/// The text of a file that is refused.
const REFUSED: &str = "file 14\n";

/// How a call's accesses are told.
#[derive(Clone, Copy, Debug, PartialEq, Eq)]
pub enum Accesses {
    /// A line each, as document 01 has it.
    Lines,
    /// As a service page, document 02's R-2, which begins anew for each call.
    Page,
}

impl Accesses {
    pub fn words(self) -> &'static str {
        match self {
            Accesses::Lines => "in lines",
            Accesses::Page => "as pages",
        }
    }
}

pub struct Printed {
    pub text: String,
    /// The calls, unless the file is refused.
    pub calls: Option<Vec<Run>>,
    /// The outcomes of those that came to a later piece of an operation.
    pub later: Vec<&'static str>,
}

pub fn of(file: &[u8], accesses: Accesses) -> Printed {
    let Some(cases) = meaning::read(file) else {
        return Printed {
            text: REFUSED.to_string(),
            calls: None,
            later: Vec::new(),
        };
    };
    let calls: Vec<Run> = cases.iter().map(Run::of).collect();
    let mut text = String::new();
    for run in &calls {
        run.write_outcome(&mut text);
        match accesses {
            Accesses::Lines => run.write_accesses(&mut text),
            Accesses::Page => text.push_str(&page::of_accesses(&run.log)),
        }
        if !run.is_refused() && shows_buffer(run.call) {
            run.write_buffer(&mut text);
        }
    }
    let both = cases.iter().zip(&calls);
    let later = both.filter(|(case, run)| !later_controls(&case.asked, &run.log).is_empty());
    let later = later.map(|(_, run)| run.word).collect();
    Printed {
        text,
        calls: Some(calls),
        later,
    }
}

/// Whether a call may have changed its buffer.
fn shows_buffer(number: u32) -> bool {
    matches!(meaning::kind(number), 7 | 9 | 11)
}

#[cfg(test)]
mod tests {
    use super::super::entry::bytes;
    use super::*;
    use crate::calls::expected::DOCUMENT_01;

    fn printed(words: &[u32]) -> String {
        of(&bytes(words), Accesses::Lines).text
    }

    /// The words of document 01's file.
    const WORKED: [u32; 14] = [
        1,
        7,
        0x50,
        4,
        5,
        1,
        2,
        0x12,
        0x34,
        1,
        0x0202_00A0,
        3,
        3,
        0x21,
    ];

    #[test]
    fn the_run_of_document_01() {
        assert_eq!(printed(&WORKED), DOCUMENT_01);
    }

    #[test]
    fn a_page_for_each_call() {
        let twice = [
            &[2][..],
            &WORKED[1..5],
            &WORKED[1..5],
            &WORKED[5..],
            &WORKED[5..],
        ]
        .concat();
        let text = of(&bytes(&twice), Accesses::Page).text;
        let page = page::print::page(&bytes(&page::print::DOCUMENT_01), usize::MAX).unwrap();
        let once = format!("7 done 0 5 9\n{page}b 1234\n");
        assert_eq!(text, once.repeat(2));
        assert_eq!(of(&[], Accesses::Page).text, "file 14\n");
    }

    #[test]
    fn no_calls_and_no_file() {
        assert_eq!(printed(&[0]), "");
        assert_eq!(printed(&[]), "file 14\n");
        assert!(of(&[], Accesses::Lines).calls.is_none());
    }

    #[test]
    fn calls_stand_one_after_the_other() {
        let words = [
            5, 16, 0, 0, 1, 25, 0, 0, 0, 9, 0, 0, 0, 7, 1, 1, 0, 9, 2, 0, 2, 5, 0, 4, 0xAB,
        ];
        let expected = "16 refused 12 0 0\n\
                        25 done 0 0 0\n\
                        b\n\
                        9 refused 11 0 0\n\
                        7 done 0 0 0\n\
                        b\n\
                        9 waiting 0 2 2\n\
                        r 18 00000004\n\
                        r 24 000000AB\n\
                        b AB00\n";
        assert_eq!(printed(&words), expected);
    }

    /// Where a mistake stands in the file does not matter: nothing is printed before it is found.
    #[test]
    fn a_refused_file_prints_nothing_else() {
        assert_eq!(printed(&[2, 6, 0, 0, 0, 6, 1, 0, 0]), "file 14\n");
        assert_eq!(printed(&[2, 6, 0, 0, 0, 6, 0, 0, 0]).lines().count(), 2);
    }

    #[test]
    fn buffers_that_are_not_shown() {
        let outputs = [10, 12, 26, 28].map(|number| printed(&[1, number, 0, 1, 0, 0x12]));
        assert!(outputs.iter().all(|text| !text.contains('b')));
    }
}
