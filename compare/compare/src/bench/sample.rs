//! The fixed sample of bench files that is stored: each call, each refusal, lengths around a block,
//! each wait left and each error in it, and each way into refusal 14.

use super::entry;
use super::meaning;
use super::text::{self, Accesses};
use crate::calls::build::*;
use crate::calls::case::Case;
use crate::calls::chip::*;
use crate::calls::known::MANUAL_WRITES;
use crate::calls::run::Run;
use crate::calls::sample as calls;
use crate::stored::{File, Sample};

/// All files, in the order of the text.
pub fn files() -> Vec<File> {
    [
        cut("document-01", vec![document_01()]),
        cut("no-calls", vec![]),
        cut("set-up", set_up()),
        cut("transactions", described(calls::transactions())),
        cut("target", described(target())),
        cut("manual", manual()),
        cut("refused", refused()),
        long_files(),
        cut("manual-in", blocks_in()),
        cut("manual-out", blocks_out()),
        cut("waiting", runs().iter().flat_map(prefixes).collect()),
        cut("errors", runs().iter().flat_map(errors).collect()),
        wrong_files(),
    ]
    .concat()
}

/// The files, and what the program has to print of them.
pub fn stored() -> Sample {
    let files = files();
    let text = files.iter().map(|(_, file)| printed(file).text).collect();
    Sample { files, text }
}

fn printed(file: &[u8]) -> text::Printed {
    text::of(file, Accesses::Lines)
}

/// Calls in as many files as they take: `NAME.bench`, or `NAME-1.bench` and so on.
fn cut(name: &str, cases: Vec<Case>) -> Vec<File> {
    let mut cuts: Vec<&[Case]> = cases.chunks(entry::CALLS).collect();
    if cuts.is_empty() {
        cuts.push(&[]);
    }
    let name = |place| match cuts.len() {
        1 => format!("{name}.bench"),
        _ => format!("{name}-{}.bench", place + 1),
    };
    let files = cuts.iter().enumerate();
    files
        .map(|(place, cases)| (name(place), meaning::write(cases)))
        .collect()
}

/// Calls of the fixed sample.
fn described(calls: Vec<calls::Described>) -> Vec<Case> {
    let cases = calls.iter().map(|(_, case)| meaning::as_read(case));
    cases.collect()
}

fn set_up() -> Vec<Case> {
    [described(calls::set_up()), addresses()].concat()
}

fn manual() -> Vec<Case> {
    [described(calls::blocks()), second_block()].concat()
}

fn target() -> Vec<calls::Described> {
    [calls::events(), calls::receptions(), calls::transmissions()].concat()
}

fn document_01() -> Case {
    let case = transaction(&[2]).bytes(&[0x12, 0x34]);
    case.answers(&[1, 0x0202_00A0, 3, 3, 0x21])
}

/// The first and the last address of both modes.
fn addresses() -> Vec<Case> {
    let at = |address| transaction(&[0]).asking(|asked| asked.address = address);
    let own = |number| {
        [
            call(number).owning(0, Some(0), Some(0)),
            call(number).owning(127, Some(127), Some(6)),
            call(number).owning_ten_bit(0, None),
            call(number).owning_ten_bit(1_023, None),
        ]
    };
    let sent = [at(0), at(127), at(0).ten_bit(0), at(0).ten_bit(1_023)];
    // Setting up takes two answers at most.
    let own = [1, 2, 3].map(own).concat().into_iter();
    sent.into_iter()
        .chain(own.map(|case| case.answers(&[1, 1])))
        .collect()
}

/// Each refusal, from each of its sides that a file has.
fn refused() -> Vec<Case> {
    let at = |address| transaction(&[]).asking(|asked| asked.address = address);
    let target = |number| call(number).owning(0x42, None, None);
    let reading = |lengths: &[u32]| {
        let operations: Vec<u32> = lengths.iter().map(|length| READ | length).collect();
        transaction(&operations)
    };
    let unlisted = [0, 16, 23, 30, 31, 32, 0x107, u32::MAX];
    let mut cases: Vec<Case> = unlisted.map(|it| call(it).answers(&[1])).into();
    cases.extend([4, 5].map(|number| call(number).listening(3).answers(&[1])));
    cases.extend([
        call(4).listening(u32::MAX),
        at(128).answers(&[1]),
        at(65_535),
        at(0).ten_bit(1_024),
        at(0).ten_bit(65_535),
        call(1).owning(128, None, None),
        call(2).owning_ten_bit(1_024, None),
        target(3).asking(|asked| asked.secondary_address = Some(128)),
        target(1).asking(|asked| asked.mask = Some(7)),
        target(2).asking(|asked| asked.mask = Some(u32::MAX - 1)),
        // Too many operations, bits that mean nothing, and a sum beyond what is lent.
        transaction(&[0; 65]).answers(&[1]),
        transaction(&[0x2_0001]).bytes(&[0x12]),
        transaction(&[0x8003_0001, 1]),
        reading(&[65_535, 2]),
        reading(&[65_535; 64]),
        // Long operations, of which there are too many.
        reading(&[&[0; 64][..], &[256]].concat()),
        // The sum is what is lent; but that is too much.
        reading(&[65_535, 1]).answers(&[1]),
        reading(&[32_768; 2]).answers(&[1]),
    ]);
    cases.extend([9, 10, 11, 12].map(|number| call(number).answers(&[1])));
    cases.extend([9, 11, 25, 27].map(|number| call(number).zeros(meaning::LENT).answers(&[1])));
    cases
}

/// A file that is as long as it may be, and buffers that are cut.
fn long_files() -> Vec<File> {
    let lent = |argument| {
        let numbers = [9, 11, 25, 27];
        numbers.map(|number| [number, argument, 0, 0]).concat()
    };
    let words = [&[8][..], &lent(65_537), &lent(u32::MAX)].concat();
    vec![
        (
            "bytes-65536.bench".to_string(),
            meaning::write(&[longest()]),
        ),
        ("lent-65537.bench".to_string(), entry::bytes(&words)),
    ]
}

/// A call that fills a file.
fn longest() -> Case {
    call(6).answers(&vec![0; entry::BYTES / 4 - 5])
}

/// What a manual transfer is tried with.
const LENGTHS: [usize; 7] = [0, 1, 255, 256, 510, 511, 600];

fn blocks_in() -> Vec<Case> {
    let event = |number| match number {
        27 => call(27).answers(&[MATCH]).answers(&MANUAL_WRITE),
        _ => call(number),
    };
    let receives = |case: Case, length: usize| {
        let counts = blocks(length).into_iter();
        let case = case.zeros(length);
        counts.fold(case, |case, count| {
            case.answers(&[0x01FF_0000]).receives(count as u32)
        })
    };
    let tried = |number| LENGTHS.map(|length| receives(event(number), length));
    [25, 27].map(tried).concat()
}

/// Each with a zero after the last byte, then a NACK.
fn blocks_out() -> Vec<Case> {
    let sends = |number, length| match manual_write(number, length, length + 1) {
        case if length == 0 => case,
        case => case.nacks(),
    };
    let tried = |number| LENGTHS.map(|length| sends(number, length));
    MANUAL_WRITES.map(tried).concat()
}

/// The lengths of a transfer's blocks.
fn blocks(length: usize) -> Vec<usize> {
    let lengths = (0..length).step_by(255);
    lengths.map(|start| (length - start).min(255)).collect()
}

/// Left, stopped or failing as the second block begins.
fn second_block() -> Vec<Case> {
    let first_in = || call(25).zeros(256).answers(&[0]).receives(255);
    let first_out = || {
        let case = call(26).bytes(&counted(256));
        case.answers(&[0]).asks_for(255)
    };
    let begun_in = || first_in().answers(&[0x01FF_0000]);
    let begun_out = || first_out().answers(&[0x00FF_0000]);
    vec![
        first_in(),
        begun_in(),
        begun_in().answers(&[RXNE]),
        begun_in().answers(&[STOPF]),
        begun_in().answers(&[ARLO]),
        first_out(),
        begun_out(),
        begun_out().asks_for(1),
        begun_out().nacks(),
        begun_out().answers(&[BERR]),
    ]
}

/// A run of each call, and of each way that a call can go, with polls that find nothing. All end.
fn runs() -> Vec<Case> {
    let flush = [TXIS, 0];
    let read = [TXE, RXNE, 0x171, 0, RXNE | STOPF, 0x72];
    let written = [TXE, TXIS, TXE | TXIS, TXIS, 0, NACKF | TXIS, TXIS, 0];
    let manual_header = [HEADER & !TXE, 0x1_0001, 0x01FF_8000, 0x6A5, 1, 0x8000];
    vec![
        call(1).timed(0x60FB_1C39).answers(&[1]),
        call(1).owning(0x42, Some(0x21), Some(2)).answers(&[!0]),
        call(2).owning(0x42, Some(0x21), None).answers(&[1, !1]),
        call(3).owning_ten_bit(0x2A5, Some(6)),
        call(4).listening(0).answers(&[1]),
        call(4).listening(1).answers(&[0x84]),
        call(4).listening(2).answers(&[0x342]),
        call(5).listening(0).answers(&[!0]),
        call(5).listening(1).answers(&[!0]),
        call(5).listening(2).answers(&[!0]),
        call(6).answers(&[!0, 1, 1, 1, 0, 0x1_0000]),
        // A reload, a repeated start and a stop.
        transaction(&[1, 1, READ | 1])
            .ten_bit(0x2A5)
            .bytes(&[0x12, 0x34, 0])
            .answers(&[TXE, START, TXE, 0, TXE, TXIS, TXE, TCR])
            .answers(&[TXE, START, 0, 0, TXIS, 0, TC])
            .answers(&[TXE, 0, 0, RXNE, 0xAB, TXE, STOPF]),
        // After an error a stop is awaited.
        transaction(&[1])
            .bytes(&[0x12])
            .answers(&[TXE, 0, NACKF])
            .answers(&flush)
            .answers(&[TXE, STOPF]),
        transaction(&[READ | 2])
            .zeros(2)
            .answers(&[TXE, 0, RXNE, 0x71, STOPF, TXE, STOPF]),
        transaction(&[READ | 1])
            .zeros(1)
            .answers(&[BERR, TXE, STOPF]),
        call(8).answers(&[TXE, HEADER & !TXE, 0x86A5]),
        call(8).answers(&[TXE, MATCH | DIR]),
        call(8).answers(&[0, STOPF]),
        call(9).zeros(2).answers(&read).answers(&[0x1_0000]),
        call(9).zeros(2).answers(&[RXNE, 1, ADDR, 0x1_0000]),
        call(10).bytes(&[0x12, 0x34]).answers(&written),
        call(11)
            .zeros(2)
            .answers(&[TXE, MATCH & !TXE])
            .answers(&read)
            .answers(&[0x1_0000]),
        call(11).zeros(2).answers(&[0, MATCH | DIR]),
        call(12)
            .bytes(&[0x12, 0x34])
            .answers(&[TXE, MATCH | DIR])
            .answers(&written),
        call(12).bytes(&[0x12]).answers(&[0, MATCH]),
        call(13).answers(&[TXE, STOPF]),
        call(13).answers(&[0, MATCH | DIR]),
        call(14).answers(&[!0]),
        call(15).answers(&[0x0101_0000, 0x0101_8000]),
        call(24).answers(&[TXE]).answers(&manual_header),
        call(24).answers(&[0, MATCH | DIR]).answers(&MANUAL),
        call(24).answers(&[TXE, STOPF]),
        call(25).zeros(2).answers(&[0x01FF_0000]).answers(&read),
        call(25).zeros(2).answers(&[0, RXNE, 1, TXE, STOPF]),
        call(26)
            .bytes(&[0x12, 0x34])
            .answers(&[0x01FF_0000])
            .answers(&written),
        call(27)
            .zeros(2)
            .answers(&[0, MATCH & !TXE])
            .answers(&MANUAL_WRITE)
            .answers(&[!0])
            .answers(&read),
        call(27).zeros(2).answers(&[MATCH | DIR]).answers(&MANUAL),
        call(28)
            .bytes(&[0x12, 0x34])
            .answers(&[TXE, MATCH & !TXE | DIR])
            .answers(&MANUAL)
            .answers(&[0x01FF_0000])
            .answers(&written),
        call(28)
            .bytes(&[0x12])
            .answers(&[MATCH])
            .answers(&MANUAL_WRITE),
        call(29).answers(&[TXE, STOPF]),
        call(29).answers(&[MATCH]).answers(&MANUAL_WRITE),
    ]
}

/// The run whole, and left before each of its reads.
fn prefixes(run: &Case) -> Vec<Case> {
    let left = |kept| {
        let mut case = run.clone();
        case.answers.truncate(kept);
        case
    };
    (0..=run.answers.len()).map(left).collect()
}

/// The run with each error in each status word.
fn errors(run: &Case) -> Vec<Case> {
    let log = Run::of(run).log;
    let reads = log.iter().filter(|access| access[0] < 0x100);
    let statuses = reads.enumerate().filter(|(_, access)| access[0] == ISR);
    let failing = |(place, &[_, status]): (usize, &[u32; 2])| {
        let flags = [BERR, ARLO, NACKF].into_iter();
        let others = flags.filter(move |flag| status & flag == 0);
        others.map(move |flag| with_error(run, place, flag))
    };
    statuses.flat_map(failing).collect()
}

/// The run with a flag in its status word at this place. An error that is looked at is followed by
/// what the driver may await then, one that is not by the rest of the run.
fn with_error(run: &Case, place: usize, flag: u32) -> Case {
    let mut case = run.clone();
    case.answers.truncate(place);
    let before = Run::of(&case).log.len();
    case.answers.push(run.answers[place] | flag);
    let is_cleared = Run::of(&case).log.get(before + 1) == Some(&[0x11C, flag]);
    let rest = [TXE, TXE, TXE | STOPF];
    case = case.answers(if is_cleared {
        &rest
    } else {
        &run.answers[place + 1..]
    });
    case.answers.truncate(Run::of(&case).used);
    case
}

/// A file of these calls is right, and refused as 14 once its words are changed.
type Mistake = (&'static str, Vec<Case>, Change);
type Change = fn(&mut Vec<u32>);

/// Files that are refused, each with a single thing wrong.
fn wrong_files() -> Vec<File> {
    let named = |(name, file): (&str, Vec<u8>)| (format!("{name}.bench"), file);
    let bytes = [
        ("empty", vec![]),
        ("bytes-5", vec![0; 5]),
        ("bytes-65540", meaning::write(&[longest().answers(&[0])])),
    ];
    let words = mistakes().into_iter().map(|(name, cases, change)| {
        let (mut words, _) = entry::words(&meaning::write(&cases));
        change(&mut words);
        (name, entry::bytes(&words))
    });
    bytes.into_iter().chain(words).map(named).collect()
}

fn mistakes() -> Vec<Mistake> {
    [table_mistakes(), head_mistakes(), word_mistakes()].concat()
}

/// Words of a file with one call: 0 the count, 1 to 4 number, argument and lengths, then the head.
const ARGUMENT: usize = 2;
const HEAD: usize = 3;
const ANSWERS: usize = 4;
const BODY: usize = 5;

fn table_mistakes() -> Vec<Mistake> {
    vec![
        ("count-65", vec![call(6); 64], |words| {
            words[0] = 65;
            words.extend([6, 0, 0, 0]);
        }),
        // The size of such a table, in bytes, is 0 as a word.
        ("count-wraps", vec![], |words| words[0] = 1 << 28),
        ("table-short", vec![call(6)], |words| {
            words.pop();
        }),
        ("word-missing", vec![call(6).answers(&[1])], |words| {
            words.pop();
        }),
        ("word-extra", vec![call(6)], |words| words.push(0)),
        ("lengths-wrap", vec![call(6)], |words| {
            words[HEAD] = u32::MAX;
            words[ANSWERS] = 1;
        }),
    ]
}

/// Changes that leave the lengths right, but give a call another count of head words.
fn head_mistakes() -> Vec<Mistake> {
    let longer: Change = |words| {
        words[HEAD] += 1;
        words.push(0);
    };
    let shorter: Change = |words| {
        words[HEAD] -= 1;
        words.pop();
    };
    let target = |number| vec![call(number).owning(0x42, None, None)];
    let two = || vec![transaction(&[2]).bytes(&[0x12, 0x34])];
    vec![
        ("head-1-none", vec![call(1)], shorter),
        ("head-1-two", vec![call(1)], longer),
        ("head-2-four", target(2), shorter),
        ("head-3-five", target(3), longer),
        ("head-4-one", vec![call(4)], longer),
        ("head-7-none", vec![transaction(&[])], shorter),
        ("head-7-short", two(), shorter),
        ("head-7-long", two(), longer),
        ("head-7-list", vec![transaction(&[])], |words| {
            words[BODY] = 1;
        }),
        ("head-9-one", vec![call(9)], longer),
        ("head-15-one", vec![call(15)], longer),
        ("head-30-one", vec![call(30)], longer),
    ]
}

fn word_mistakes() -> Vec<Mistake> {
    let argued: Change = |words| words[ARGUMENT] = 1;
    let last_wide: Change = |words| *words.last_mut().expect("it is a byte") = 256;
    let target = |number| vec![call(number).owning(0x42, None, None)];
    vec![
        ("argument-1", vec![call(1)], argued),
        ("argument-3", target(3), argued),
        ("argument-7", vec![transaction(&[])], |words| {
            words[ARGUMENT] = 131_072;
        }),
        ("argument-8", vec![call(8)], argued),
        ("argument-10", vec![call(10).bytes(&[1])], argued),
        ("argument-16", vec![call(16)], argued),
        ("argument-28", vec![call(28)], argued),
        ("argument-second", vec![call(14), call(6)], |words| {
            words[4 + ARGUMENT] = 1;
        }),
        ("byte-7", vec![transaction(&[1])], last_wide),
        ("byte-12", vec![call(12).bytes(&[1])], last_wide),
        ("byte-26", vec![call(26).bytes(&[1, 2])], last_wide),
        ("mode-1", target(1), |words| words[BODY + 2] = 2),
        ("mode-2", target(2), |words| words[BODY + 2] = 2),
        ("mode-3", target(3), |words| words[BODY + 1] = u32::MAX),
    ]
}

#[cfg(test)]
mod tests {
    use super::*;
    use crate::calls::generate::LISTED;
    use crate::calls::known::Known;
    use std::collections::BTreeSet;

    fn all_runs() -> Vec<Run> {
        let printed = files().into_iter().map(|(_, file)| printed(&file));
        printed.filter_map(|it| it.calls).flatten().collect()
    }

    #[test]
    fn every_call_and_every_end_is_there() {
        let runs = all_runs();
        for number in LISTED {
            let its = runs.iter().filter(|run| run.call == number);
            assert!(its.filter(|run| !run.is_refused()).count() >= 2);
        }
        let ends: BTreeSet<&str> = runs.iter().map(|run| run.word).collect();
        assert_eq!(ends.len(), 12);
        let refusals = runs.iter().filter(|run| run.is_refused());
        let refusals: BTreeSet<u32> = refusals.map(|run| run.value).collect();
        assert!(refusals.into_iter().eq([8, 10, 11, 12]));
        let known: BTreeSet<Known> = runs.iter().filter_map(|run| run.known).collect();
        assert!(known.into_iter().eq(Known::ALL));
    }

    #[test]
    fn the_blocks_of_a_transfer() {
        let runs = all_runs();
        for number in 25..=28 {
            for length in LENGTHS {
                let whole = |run: &&Run| {
                    run.call == number && (run.word, run.value) == ("done", length as u32)
                };
                assert!(runs.iter().any(|run| whole(&run)), "{number}, {length}");
            }
        }
    }

    /// A run of which no answer is left over ends; a shorter one waits.
    #[test]
    fn every_wait_is_left() {
        for run in runs() {
            let mut cases = prefixes(&run);
            let whole = Run::of(&cases.pop().unwrap());
            assert!(whole.word != "waiting" && whole.used == run.answers.len());
            for case in cases {
                let left = Run::of(&case);
                assert_eq!((left.word, left.used), ("waiting", case.answers.len()));
            }
        }
    }

    /// Each call that reads the status fails in both ways.
    #[test]
    fn errors_come_up() {
        let failed: Vec<Case> = runs().iter().flat_map(errors).collect();
        let ended = |number, word| {
            let its = failed.iter().filter(|case| case.asked.call == number);
            its.filter(|case| Run::of(case).word == word).count()
        };
        for number in (7..=13).chain(24..=29) {
            assert!(ended(number, "bus") >= 2, "{number}");
            assert!(ended(number, "arbitration") >= 2, "{number}");
        }
        assert!(ended(7, "nack") > 10 && ended(10, "done") > 2);
        assert!(failed
            .iter()
            .all(|case| Run::of(case).used == case.answers.len()));
    }

    #[test]
    fn a_mistake_is_what_has_a_file_refused() {
        for (name, cases, _) in mistakes() {
            assert!(meaning::read(&meaning::write(&cases)).is_some(), "{name}");
        }
        for (name, file) in wrong_files() {
            assert_eq!(printed(&file).text, "file 14\n", "{name}");
        }
    }

    #[test]
    fn files_and_text_are_of_a_size() {
        let Sample { files, text } = stored();
        let names: BTreeSet<&String> = files.iter().map(|(name, _)| name).collect();
        assert_eq!(names.len(), files.len());
        assert!(files.len() < 60, "{} files", files.len());
        assert!(text.len() < 600_000, "{} bytes", text.len());
        // Whatever is not meant to be wrong is right.
        let refused = files
            .iter()
            .filter(|(_, file)| printed(file).calls.is_none());
        assert_eq!(refused.count(), wrong_files().len());
    }
}
