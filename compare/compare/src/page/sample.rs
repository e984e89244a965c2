//! The fixed sample of logs that is stored: each register with no bit set, with all and with each
//! one, read and written; document 01's run; a log that shows each rule; and an empty one.

use super::print::{self, DOCUMENT_01, RULES};
use super::registers::{Register, REGISTERS};
use crate::rattle::bytes;
use crate::stored::{File, Sample};

/// All logs, in the order of the text.
pub fn files() -> Vec<File> {
    let named = |name: &str, words: &[u32]| (format!("{name}.log"), bytes(words).to_vec());
    let fixed = [
        named("document-01", &DOCUMENT_01),
        named("rules", &RULES),
        named("empty", &[]),
    ];
    let registers = REGISTERS
        .iter()
        .map(|register| named(&register.name.to_lowercase(), &every_bit(register)));
    fixed.into_iter().chain(registers).collect()
}

fn every_bit(register: &Register) -> Vec<u32> {
    let values = [0, u32::MAX].into_iter().chain((0..32).map(|bit| 1 << bit));
    let read = values.clone().flat_map(|value| [register.offset, value]);
    let written = values.flat_map(|value| [0x100 + register.offset, value]);
    read.chain(written).collect()
}

pub fn stored() -> Sample {
    let files = files();
    let pages = files.iter().map(|(name, log)| {
        print::page(log, usize::MAX).unwrap_or_else(|wrong| panic!("{name}: {}", wrong.words()))
    });
    let text = pages.collect();
    Sample { files, text }
}

#[cfg(test)]
mod tests {
    use super::*;

    #[test]
    fn every_bit_of_every_register_stands_alone() {
        let Sample { files, text } = stored();
        assert_eq!(files.len(), 3 + 9);
        let shown = |line: &str| {
            text.lines()
                .filter(|it| it.trim_end().ends_with(line))
                .count()
        };
        assert_eq!(shown(" 80000000 STOPFACLR DNF=0"), 2);
        assert_eq!(shown(" 00000800 DNF=8"), 2);
        assert_eq!(shown(" 00000001 OA2MSK=0 OA2=0 bit0"), 2);
        assert_eq!(shown(" 00000080 bit7"), 2, "of ICR");
        let entries: usize = files.iter().map(|(_, log)| log.len() / 8).sum();
        assert_eq!(entries, 9 + 6 + 9 * 2 * 34);
        assert!(text.len() < 100_000, "{} bytes", text.len());
    }
}
