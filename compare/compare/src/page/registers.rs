//! The nine registers bit by bit, as RM0492 draws them.

use std::sync::LazyLock;

/// Added to the offset where an access is a write.
const WRITTEN: u32 = 0x100;

/// Each register with its offset and its drawing, 32 bits from the top down: a field of one bit by
/// its name, one of more bits by its name and how many they are, bits of no field by a dot and their
/// number.
const DRAWN: [(&str, u32, &str); 9] = [
    (
        "CR1",
        0x00,
        "STOPFACLR ADDRACLR .5 FMP PECEN ALERTEN SMBDEN SMBHEN GCEN WUPEN NOSTRETCH SBC \
         RXDMAEN TXDMAEN .1 ANFOFF DNF*4 ERRIE TCIE STOPIE NACKIE ADDRIE RXIE TXIE PE",
    ),
    (
        "CR2",
        0x04,
        ".5 PECBYTE AUTOEND RELOAD NBYTES*8 \
         NACK STOP START HEAD10R ADD10 RD_WRN SADD*10",
    ),
    ("OAR1", 0x08, ".16 OA1EN .4 OA1MODE OA1*10"),
    ("OAR2", 0x0C, ".16 OA2EN .4 OA2MSK*3 OA2*7 .1"),
    (
        "TIMINGR",
        0x10,
        "PRESC*4 .4 SCLDEL*4 SDADEL*4 SCLH*8 SCLL*8",
    ),
    (
        "ISR",
        0x18,
        ".8 ADDCODE*7 DIR \
         BUSY .1 ALERT TIMEOUT PECERR OVR ARLO BERR TCR TC STOPF NACKF ADDR RXNE TXIS TXE",
    ),
    (
        "ICR",
        0x1C,
        ".18 ALERTCF TIMOUTCF PECCF OVRCF ARLOCF BERRCF .2 STOPCF NACKCF ADDRCF .3",
    ),
    ("RXDR", 0x24, ".24 RXDATA*8"),
    ("TXDR", 0x28, ".24 TXDATA*8"),
];

pub struct Register {
    pub name: &'static str,
    pub offset: u32,
    /// By the number of a bit, the name of the field that it belongs to, or nothing.
    pub bits: [&'static str; 32],
}

/// In the order of their offsets.
pub static REGISTERS: LazyLock<[Register; 9]> = LazyLock::new(|| {
    DRAWN.map(|(name, offset, drawing)| Register {
        name,
        offset,
        bits: bits(drawing),
    })
});

/// What stands at each bit of a drawing.
fn bits(drawing: &'static str) -> [&'static str; 32] {
    let mut bits = [""; 32];
    let mut above = 32;
    for part in drawing.split(' ') {
        let (name, width) = match (part.strip_prefix('.'), part.split_once('*')) {
            (Some(width), _) => ("", width),
            (None, Some((name, width))) => (name, width),
            (None, None) => (part, "1"),
        };
        let width: usize = width.parse().expect("a part of a drawing has a width");
        bits[above - width..above].fill(name);
        above -= width;
    }
    assert_eq!(above, 0, "a drawing has 32 bits");
    bits
}

/// The word for an access and the register that is accessed, if a code is of one.
pub fn accessed(code: u32) -> Option<(&'static str, &'static Register)> {
    REGISTERS
        .iter()
        .find_map(|register| match code.checked_sub(register.offset) {
            Some(0) => Some(("read", register)),
            Some(WRITTEN) => Some(("write", register)),
            _ => None,
        })
}

/// The codes that an entry may have: the reads of all registers, then the writes.
pub fn codes() -> impl Iterator<Item = u32> {
    let written = [0, WRITTEN].into_iter();
    written.flat_map(|it| REGISTERS.iter().map(move |register| it + register.offset))
}

#[cfg(test)]
mod tests {
    use super::*;

    /// The fields of a register from the top down, as docs/REGISTERS.md writes them.
    fn fields(register: &Register) -> String {
        let mut fields: Vec<(&str, usize, usize)> = Vec::new();
        for (bit, &name) in register.bits.iter().enumerate().rev() {
            match fields.last_mut() {
                Some((last, _, low)) if *last == name => *low = bit,
                _ => fields.push((name, bit, bit)),
            }
        }
        let fields = fields.iter().filter(|(name, ..)| !name.is_empty());
        let fields = fields.map(|(name, high, low)| match high == low {
            true => format!("{name} {low}"),
            false => format!("{name} {high}:{low}"),
        });
        fields.collect::<Vec<_>>().join(", ")
    }

    /// The page that is held beside the manual, and to the definitions by `.ci/registers`.
    #[test]
    fn the_drawings_are_those_of_the_register_page() {
        let page = include_str!("../../../../docs/REGISTERS.md");
        let rows: Vec<Vec<&str>> = page
            .lines()
            .map(|line| line.split('|').map(str::trim).collect())
            .filter(|cells: &Vec<&str>| cells.len() == 6 && cells[2].starts_with("0x"))
            .collect();
        assert_eq!(rows.len(), REGISTERS.len());
        for (row, register) in rows.iter().zip(REGISTERS.iter()) {
            assert_eq!(row[1], register.name);
            assert_eq!(row[2], format!("0x{:02X}", register.offset));
            assert_eq!(row[4], fields(register), "{}", register.name);
        }
    }

    #[test]
    fn codes_are_whole_words() {
        let name = |code| accessed(code).map(|(word, register)| (word, register.name));
        assert_eq!(name(0x00), Some(("read", "CR1")));
        assert_eq!(name(0x100), Some(("write", "CR1")));
        assert_eq!(name(0x24), Some(("read", "RXDR")));
        assert_eq!(name(0x128), Some(("write", "TXDR")));
        for code in [0x14, 0x20, 0x2C, 0x114, 0x218, 0x8000_0018, 0x1_0018, 1, !0] {
            assert_eq!(name(code), None, "{code:X}");
        }
        assert_eq!(codes().count(), 18);
        assert!(codes().all(|code| accessed(code).is_some()));
        let known = (0..0x1_0000).filter(|&code| accessed(code).is_some());
        assert_eq!(known.count(), 18);
    }
}
