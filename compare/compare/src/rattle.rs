//! The Rattle library, across its C boundary.
//!
//! A slice crosses as a pointer and a length of 64 bits, a struct as a pointer to its numbers.
//! Words cross as little-endian bytes: [`bytes`] lends words as they lie in memory.

use crate::answer::{Answer, Refusal};
use oracle::{Asked, Fields};

/// The bytes of a saved call.
pub const SAVED: usize = 36;

/// The bytes of a log entry.
pub const ENTRY: usize = 8;

/// Reports of an advance; those below are the outcomes in document 01's order.
pub const WAITING: u32 = 10;
pub const REFUSED: u32 = 11;
pub const FULL: u32 = 12;

/// Kinds of a next access.
pub const OVER: u32 = 0;
pub const READ: u32 = 1;
pub const WRITE: u32 = 2;
pub const NONE_REFUSED: u32 = 3;

/// The version that this program was written for, and its sizes in the header's order.
const ABI: u32 = 3;
const SIZES: [u32; 8] = [
    size_of::<Description>() as u32,
    SAVED as u32,
    size_of::<Left>() as u32,
    ENTRY as u32,
    64,
    65_535,
    FULL + 1,
    STEPS,
];

/// How many steps a saved call may name.
pub const STEPS: u32 = 46;

/// What is wrong with the library that is linked, if it is another one.
pub fn check_library() -> Result<(), String> {
    let mut sizes = [u32::MAX; 8];
    // SAFETY: it writes eight numbers.
    let version = unsafe { huskerivory_abi(&mut sizes) };
    if (version, sizes) == (ABI, SIZES) {
        return Ok(());
    }
    Err(format!(
        "the library says version {version} and sizes {sizes:?}, \
         this program was written for {ABI} and {SIZES:?}"
    ))
}

/// A refusal of 0 means that the word is given.
pub fn answer(refusal: u32, timingr: u32) -> Answer {
    if refusal == 0 {
        return Ok(timingr);
    }
    assert_eq!(timingr, 0, "refusal {refusal} comes with a word");
    Err(Refusal(refusal))
}

/// What is asked for. Flags are words: not 0 means set.
#[repr(C)]
#[derive(Clone, Copy, Debug, Default, PartialEq, Eq)]
pub struct Description {
    pub call: u32,
    pub address: u32,
    pub ten: u32,
    pub listen: u32,
    pub timingr: u32,
    pub configured: u32,
    pub own: u32,
    pub own_ten: u32,
    /// `NONE` for none; likewise `mask`.
    pub secondary: u32,
    pub mask: u32,
    /// The library does not look at these.
    pub reserved: [u32; 6],
}

impl Description {
    pub const NONE: u32 = u32::MAX;
}

impl From<&Asked> for Description {
    fn from(asked: &Asked) -> Self {
        Description {
            call: asked.call,
            address: asked.address,
            ten: asked.ten_bit.into(),
            listen: asked.listen,
            timingr: asked.timingr,
            configured: asked.configured.into(),
            own: asked.own_address,
            own_ten: asked.own_ten_bit.into(),
            secondary: asked.secondary_address.unwrap_or(Self::NONE),
            mask: asked.mask.unwrap_or(Self::NONE),
            reserved: [0; 6],
        }
    }
}

/// How an advance came out.
#[derive(Clone, Copy, Debug, PartialEq, Eq)]
pub struct Advanced {
    pub report: u32,
    /// The count or address of an outcome that has one, a refusal's number, else 0.
    pub value: u32,
    /// Of a waiting advance the offset of the register whose word comes next, else 0.
    pub awaited: u32,
    /// Answers used.
    pub used: usize,
    /// Entries written.
    pub written: usize,
}

/// What an advance leaves besides its report.
#[repr(C)]
#[derive(Clone, Copy, Debug, PartialEq, Eq)]
pub struct Left {
    pub value: u64,
    pub awaited: u64,
    pub used: u64,
    pub written: u64,
}

impl Left {
    /// What stands there before an advance: numbers that none leaves.
    pub const UNWRITTEN: Left = Left {
        value: u64::MAX,
        awaited: u64::MAX,
        used: u64::MAX,
        written: u64::MAX,
    };

    /// With its report. Every number is within the range of what it counts.
    pub fn reported(self, report: u32) -> Advanced {
        const WIDE: &str = "a number is too wide for what it counts";
        Advanced {
            report,
            value: self.value.try_into().expect(WIDE),
            awaited: self.awaited.try_into().expect(WIDE),
            used: self.used.try_into().expect(WIDE),
            written: self.written.try_into().expect(WIDE),
        }
    }
}

/// The access that an advance would make first.
#[derive(Clone, Copy, Debug, PartialEq, Eq)]
pub struct Next {
    pub kind: u32,
    /// The register's offset, or a refusal's number, else 0.
    pub value: u32,
}

extern "C" {
    fn huskerivory_abi(sizes: *mut [u32; 8]) -> u32;
    fn huskerivory_timing(clock: u32, frequency: u32, timingr: *mut u32) -> u32;
    fn huskerivory_pack(fields: *const Fields, timingr: *mut u32) -> u32;
    fn huskerivory_unpack(timingr: u32, fields: *mut Fields);
    fn huskerivory_page(
        log: *const u8,
        log_len: u64,
        page: *mut u8,
        page_len: u64,
        length: *mut u64,
    ) -> u32;
    fn huskerivory_load_bands(bands: *const u8, bands_len: u64) -> u32;
    fn huskerivory_timing_by_bands(
        bands: *const u8,
        bands_len: u64,
        clock: u32,
        frequency: u32,
        timingr: *mut u32,
    ) -> u32;

    fn huskerivory_begin(
        description: *const Description,
        operations: *const u8,
        operations_len: u64,
        buffer: *const u8,
        buffer_len: u64,
        saved: *mut u8,
        saved_len: u64,
    ) -> u32;
    fn huskerivory_advance(
        description: *const Description,
        operations: *const u8,
        operations_len: u64,
        saved: *mut u8,
        saved_len: u64,
        buffer: *mut u8,
        buffer_len: u64,
        answers: *const u8,
        answers_len: u64,
        log: *mut u8,
        log_len: u64,
        answer: *mut Left,
    ) -> u32;
    fn huskerivory_next(
        description: *const Description,
        operations: *const u8,
        operations_len: u64,
        saved: *const u8,
        saved_len: u64,
        buffer: *const u8,
        buffer_len: u64,
        value: *mut u32,
    ) -> u32;
}

// SAFETY, of the next three: each pointer is that of a number or a struct of ours, as large as what
// is read or written there.

/// The refusal; the word is left where it is told.
pub fn timing_into(clock: u32, frequency: u32, timingr: &mut u32) -> u32 {
    unsafe { huskerivory_timing(clock, frequency, timingr) }
}

pub fn pack_into(fields: &Fields, timingr: &mut u32) -> u32 {
    unsafe { huskerivory_pack(fields, timingr) }
}

pub fn unpack_into(timingr: u32, fields: &mut Fields) {
    unsafe { huskerivory_unpack(timingr, fields) }
}

pub fn timing(clock: u32, frequency: u32) -> Answer {
    let mut timingr = u32::MAX;
    let refusal = timing_into(clock, frequency, &mut timingr);
    answer(refusal, timingr)
}

pub fn pack(fields: Fields) -> Answer {
    let mut timingr = u32::MAX;
    let refusal = pack_into(&fields, &mut timingr);
    answer(refusal, timingr)
}

pub fn unpack(timingr: u32) -> Fields {
    let mut fields = UNWRITTEN_FIELDS;
    unpack_into(timingr, &mut fields);
    fields
}

/// What stands there before a word is unpacked.
pub const UNWRITTEN_FIELDS: Fields = Fields {
    presc: 0xA5,
    scldel: 0xA5,
    sdadel: 0xA5,
    sclh: 0xA5,
    scll: 0xA5,
};

// SAFETY, of the next six: each pointer and length are those of one slice, which is never at null,
// or of a struct or number that is borrowed; the borrows keep what is written apart from all else,
// and nothing is kept after the call.

/// The service page of a log: 0, or a refusal's number; its length is left where it is told.
pub fn page(log: &[u8], page: &mut [u8], length: &mut u64) -> u32 {
    unsafe {
        huskerivory_page(
            log.as_ptr(),
            log.len() as u64,
            page.as_mut_ptr(),
            page.len() as u64,
            length,
        )
    }
}

/// 0 if the table is accepted, else a refusal's number.
pub fn load_bands(bands: &[u8]) -> u32 {
    unsafe { huskerivory_load_bands(bands.as_ptr(), bands.len() as u64) }
}

/// The refusal; the word is left where it is told.
pub fn timing_by_bands_into(bands: &[u8], clock: u32, frequency: u32, timingr: &mut u32) -> u32 {
    unsafe {
        huskerivory_timing_by_bands(
            bands.as_ptr(),
            bands.len() as u64,
            clock,
            frequency,
            timingr,
        )
    }
}

pub fn timing_by_bands(bands: &[u8], clock: u32, frequency: u32) -> Answer {
    let mut timingr = u32::MAX;
    let refusal = timing_by_bands_into(bands, clock, frequency, &mut timingr);
    answer(refusal, timingr)
}

/// Begins a call: 0 and the saved call, or a refusal's number and, where there is room for one, the
/// saved call that no advance takes.
pub fn begin(description: &Description, operations: &[u8], buffer: &[u8], saved: &mut [u8]) -> u32 {
    unsafe {
        huskerivory_begin(
            description,
            operations.as_ptr(),
            operations.len() as u64,
            buffer.as_ptr(),
            buffer.len() as u64,
            saved.as_mut_ptr(),
            saved.len() as u64,
        )
    }
}

pub fn advance(
    description: &Description,
    operations: &[u8],
    saved: &mut [u8],
    buffer: &mut [u8],
    answers: &[u8],
    log: &mut [u8],
) -> Advanced {
    let mut left = Left::UNWRITTEN;
    let report = advance_into(
        description,
        operations,
        saved,
        buffer,
        answers,
        log,
        &mut left,
    );
    left.reported(report)
}

/// The report; the rest is left where it is told.
pub fn advance_into(
    description: &Description,
    operations: &[u8],
    saved: &mut [u8],
    buffer: &mut [u8],
    answers: &[u8],
    log: &mut [u8],
    left: &mut Left,
) -> u32 {
    unsafe {
        huskerivory_advance(
            description,
            operations.as_ptr(),
            operations.len() as u64,
            saved.as_mut_ptr(),
            saved.len() as u64,
            buffer.as_mut_ptr(),
            buffer.len() as u64,
            answers.as_ptr(),
            answers.len() as u64,
            log.as_mut_ptr(),
            log.len() as u64,
            left,
        )
    }
}

pub fn next(description: &Description, operations: &[u8], saved: &[u8], buffer: &[u8]) -> Next {
    let mut value = u32::MAX;
    let kind = next_into(description, operations, saved, buffer, &mut value);
    Next { kind, value }
}

/// The kind; the value is left where it is told.
pub fn next_into(
    description: &Description,
    operations: &[u8],
    saved: &[u8],
    buffer: &[u8],
    value: &mut u32,
) -> u32 {
    unsafe {
        huskerivory_next(
            description,
            operations.as_ptr(),
            operations.len() as u64,
            saved.as_ptr(),
            saved.len() as u64,
            buffer.as_ptr(),
            buffer.len() as u64,
            value,
        )
    }
}

/// Words as they cross the boundary.
pub fn bytes(words: &[u32]) -> &[u8] {
    const { assert!(cfg!(target_endian = "little")) };
    // SAFETY: any byte of a word is a byte.
    let (none, bytes, rest) = unsafe { words.align_to() };
    debug_assert!(none.is_empty() && rest.is_empty());
    bytes
}

/// A word of a saved call, by its number.
pub fn word(saved: &[u8], number: usize) -> u32 {
    let bytes = &saved[4 * number..4 * number + 4];
    u32::from_le_bytes(bytes.try_into().expect("four bytes"))
}

/// Makes a word of a saved call another.
pub fn put(saved: &mut [u8], number: usize, word: u32) {
    saved[4 * number..4 * number + 4].copy_from_slice(&word.to_le_bytes());
}

/// The words of a saved call, by their numbers.
pub mod saved {
    pub const CALL: usize = 0;
    pub const PIECE: usize = 1;
    pub const BYTE: usize = 2;
    pub const ACCESSES: usize = 4;
    pub const OUTCOME: usize = 5;
    pub const VALUE: usize = 6;
    pub const STEP: usize = 7;
    /// The bytes that a manual write has put out, held at its buffer's length + 1 (document 02, R-6).
    pub const OUT: usize = 8;
}

#[cfg(test)]
mod tests {
    use super::*;
    use crate::calls::build::transaction;
    use crate::calls::case::Case;

    #[test]
    fn the_library_is_the_one_that_this_was_written_for() {
        assert_eq!(check_library(), Ok(()));
        assert_eq!(SIZES, [64, 36, 32, 8, 64, 65_535, 13, 46]);
    }

    #[test]
    fn the_run_that_document_01_prints() {
        let description = Description {
            call: 7,
            address: 0x50,
            secondary: Description::NONE,
            mask: Description::NONE,
            ..Default::default()
        };
        let operations = bytes(&[2]);
        let mut saved = [0xA5; SAVED];
        let mut buffer = [0x12, 0x34];
        assert_eq!(begin(&description, operations, &buffer, &mut saved), 0);
        assert_eq!(word(&saved, saved::CALL), 7);

        let answers = bytes(&[1, 0x0202_00A0, 3, 3, 0x21]);
        let mut log = [0xA5; 9 * ENTRY + 3];
        let next = next(&description, operations, &saved, &buffer);
        assert_eq!((next.kind, next.value), (WRITE, 4));
        let given = advance(
            &description,
            operations,
            &mut saved,
            &mut buffer,
            answers,
            &mut log,
        );
        let expected = Advanced {
            report: 0,
            value: 0,
            awaited: 0,
            used: 5,
            written: 9,
        };
        assert_eq!(given, expected);
        assert_eq!(buffer, [0x12, 0x34]);
        assert_eq!(log[..8], *bytes(&[0x104, 0x0202_20A0]));
        assert_eq!(log[64..72], *bytes(&[0x11C, 0x20]));
        assert_eq!(log[72..], [0xA5; 3]);
    }

    /// The report, value, answers used and entries written of an uncut run, and the words written
    /// to CR2.
    fn run(case: &Case) -> (u32, u32, usize, usize, Vec<u32>) {
        let description = Description::from(&case.asked);
        let operations = bytes(&case.asked.operations);
        let mut saved = [0xA5; SAVED];
        let mut buffer = case.buffer.clone();
        assert_eq!(begin(&description, operations, &buffer, &mut saved), 0);
        let mut log = vec![0; 1_000 * ENTRY];
        let given = advance(
            &description,
            operations,
            &mut saved,
            &mut buffer,
            bytes(&case.answers),
            &mut log,
        );
        let entries = (0..given.written).map(|entry| [2 * entry, 2 * entry + 1]);
        let entries = entries.map(|places| places.map(|place| word(&log, place)));
        let controls = entries.filter(|entry| entry[0] == 0x104);
        (
            given.report,
            given.value,
            given.used,
            given.written,
            controls.map(|entry| entry[1]).collect(),
        )
    }

    #[test]
    fn the_examples_of_r_1() {
        let answers = [&[1, 0][..], &[2; 255], &[0x80, 1, 0, 2, 0x20]].concat();
        let case = transaction(&[256]).zeros(256).answers(&answers);
        let controls = vec![0x01FF_20A0, 0x0201_0000];
        assert_eq!(run(&case), (0, 0, 262, 521, controls));

        let case = transaction(&[1, 0x1_0100]).zeros(257).ten_bit(0x123);
        let controls = vec![0x0001_2923, 0x01FF_3D23, 0x0201_0400];
        assert_eq!(run(&case.goes_through()), (0, 0, 522, 527, controls));

        let case = transaction(&[0]).answers(&[1, 0, 0x20]);
        assert_eq!(run(&case), (0, 0, 3, 5, vec![0x0200_20A0]));
    }

    #[test]
    fn long_operations_are_refused_as_nothing_else() {
        let refusal = |operations: &[u32], length: usize| {
            let case = transaction(operations).zeros(length);
            let mut saved = [0; SAVED];
            begin(
                &(&case.asked).into(),
                bytes(operations),
                &case.buffer,
                &mut saved,
            )
        };
        assert_eq!(refusal(&[256], 256), 0);
        assert_eq!(refusal(&[65_535], 65_535), 0);
        assert_eq!(refusal(&[32_768; 2], 65_536), 11);
        assert_eq!(refusal(&[32_768; 2], 65_535), 10);
        assert_eq!(refusal(&[1_021; 64], 64 * 1_021), 0);
        assert_eq!(refusal(&[256; 65], 65 * 256), 10);
    }
}
